"""The script that is made of a translation: which actions are its calls, and what is said of the others."""

import json

from places import Refused, is_utf8, load_json, parts_of
from translation import ERRORS, REWALKED, TWO_CALLS

CALLS_MOST = 512
ONE_STEP = {'make_dir', 'make_file', 'make_link', 'remove_file', 'remove_dir', 'rename'}
PATH_CALLS = {'make_dir': 'create_dir', 'make_file': 'create_file', 'make_link': 'create_link'}
OF_HANDLE = {'list', 'below', 'release'}
OTHER_ROOT = {'root': 'it is looked up from the top, and the script has the rootfs as its root (--as host)',
              'top': 'it is looked up below the rootfs, and the script has the top as its root (--as root)'}


def attackers_of(path):
    """The other actors: one, or a list of them, as a script has them."""
    found = load_json(path, 'attacker')
    actors = found if isinstance(found, list) else [found]
    for number, actor in enumerate(actors):
        calls = actor.get('calls') if isinstance(actor, dict) else None
        is_plan = isinstance(calls, list) and all(isinstance(call, dict) for call in calls)
        if not is_plan or not isinstance(actor.get('root'), str):
            raise Refused('attacker %s: actor %d is none' % (path, number))
    return actors


def escaped(name):
    """A name as inroot prints it."""
    shown = name.encode('utf-8', 'surrogateescape')
    return ''.join(chr(byte) if 0x21 <= byte <= 0x7e and byte != 0x5c else '\\x%02x' % byte for byte in shown)


class Script:
    """Chooses the actions that touch the path, with what opened their descriptors, and says each as calls."""

    def __init__(self, translation, below, root):
        self.of, self.below, self.calls, self.told, self.otherwise = translation, below, [], [], []
        self.labels = 0
        touching = [action for action in translation.actions if action.touches]
        self.root = root or self.best_root(touching)
        self.kept, self.labelled, self.dropped = set(), set(), set()
        for action in touching:
            self.keep(action)
        self.said = [action for action in translation.actions if action in self.kept or self.is_released(action)]
        self.released = {action.where.handle for action in self.said if action.what == 'release'}

    # ---- which actions

    @staticmethod
    def best_root(touching):
        """The root that leaves out fewer of the calls; the rootfs if they are as many."""
        by_top = sum(action.where.top is None for action in touching)
        by_root = sum(action.where.root is None for action in touching)
        return 'top' if by_top < by_root or not by_top else 'root'

    def needed(self, action):
        """The handles that the action names by a label."""
        if action.what.startswith('resolve') and not action.made_before:
            return []
        wheres = [where for where in (action.where, action.to) if where and where.handle]
        if action.what in ONE_STEP or action.made_before:
            whole = all(where.name for where in wheres) and len(wheres) == (2 if action.to else 1)
            return [where.handle for where in wheres if not where.handle.is_rootfs] if whole else []
        return [where.handle for where in wheres if where.name == '' and self.label_of_root(where.handle) is None]

    def keep(self, action):
        todo = [action]
        while todo:
            one = todo.pop()
            if one in self.kept:
                continue
            self.kept.add(one)
            for handle in self.needed(one):
                self.labelled.add(handle)
                if handle.opener:
                    todo.append(handle.opener)

    def is_released(self, action):
        return action.what == 'release' and action.where.handle.opener in self.kept

    # ---- how a script says them

    def path(self, where):
        text = where.top if self.root == 'top' else where.root
        return text if text else None if text is None else '/'

    def label_of_root(self, handle):
        """The label of the actor's root, where the handle is on it."""
        return 'root' if handle.is_rootfs and self.root == 'root' else None

    def label(self, where):
        """The label of the handle that a step is on; None if there is none."""
        if where.handle is None or not where.name:
            return None
        return self.label_of_root(where.handle) if where.handle.is_rootfs else where.handle.label

    def unsaid(self, action):
        """Why the action can't be a call of this script; None if it can."""
        wheres = [where for where in (action.where, action.to) if where]
        texts = [text for where in wheres for text in (self.path(where), where.name) if text]
        if not all(is_utf8(text) for text in texts + [action.text] if isinstance(text, str)):
            return 'its path is not UTF-8'
        if any(handle.label is None for handle in self.needed(action)):
            return 'its descriptor was opened by no call of the script'
        by_label = all(self.label(where) or where.name == '' for where in wheres)
        by_path = action.what.startswith('resolve') or not by_label
        if by_path and any(self.path(where) is None for where in wheres):
            return OTHER_ROOT[self.root]
        return None

    def say(self):
        for action in self.said:
            if action.what == 'release':
                if action.where.handle.label:
                    self.add(action, {'op': 'release', 'on': action.where.handle.label}, None)
                continue
            why = self.unsaid(action)
            if why:
                self.of.left.append((action.line, action.name, why))
                self.dropped.add(action)
                continue
            self.say_one(action)
        if len(self.calls) > CALLS_MOST:
            raise Refused('%d calls touch the path, and a script takes %d: choose a path below it, or lines (--lines)' %
                          (len(self.calls), CALLS_MOST))

    def say_one(self, action):
        if action.ended and action.ended not in ERRORS:
            self.note(action, 'it ended in %s, which no call of a script does' % action.ended)
        for note in action.notes:
            self.note(action, note)
        if action.what.startswith('resolve'):
            self.say_resolve(action)
        elif action.what in OF_HANDLE or action.what == 'read_link' and action.where.name == '':
            self.say_of_handle(action)
        elif self.label(action.where) and (not action.to or self.label(action.to)) and action.what in ONE_STEP:
            self.say_step(action)
        else:
            self.say_path(action)

    def note(self, action, why):
        self.otherwise.append((action.line, action.name, why))

    def ending(self, action, done):
        return done if not action.ended else 'fault ' + action.ended if action.ended in ERRORS else None

    def say_resolve(self, action):
        on = self.label(action.where)
        if action.made_before:
            made = {'op': 'step', 'step': 'make_file', 'on': on, 'name': action.where.name} if on else \
                {'op': 'create_file', 'path': self.path(action.where), **action.restricted}
            expected = 'stepped done' if on and action.expected == 'done' else action.expected
            self.add(action, made, expected)
            if action.made_alone:
                self.otherwise.remove((action.line, action.name, TWO_CALLS))
                return
            if on and action.opened not in self.labelled:
                self.otherwise.remove((action.line, action.name, TWO_CALLS))
                self.note(action, 'the file is made, and not opened: no call of the script needs its descriptor')
                return
        if action.where.is_rewalked():
            self.note(action, REWALKED)
        call = {'op': action.what, 'path': self.path(action.where), **action.restricted}
        if action.opened and (action.opened in self.labelled or action.opened in self.released):
            self.labels += 1
            action.opened.label = call['as'] = 'h%d' % self.labels
        self.add(action, call, self.ending(action, 'opened'))

    def say_of_handle(self, action):
        label = self.label_of_root(action.where.handle) or action.where.handle.label
        done = 'stepped'
        if action.what == 'below' and action.text:
            done = self.names_of(action.text[0].top)
        self.add(action, {'op': 'step', 'step': action.what, 'on': label}, self.ending(action, done))

    def names_of(self, top):
        """The reply of the step `below`, by the place that the trace shows."""
        names = parts_of(top)[0] if top is not None else []
        above = parts_of(self.below)[0] if self.root == 'root' else []
        return None if top is None else 'stepped names /' + '/'.join(escaped(name) for name in names[len(above):])

    def say_step(self, action):
        call = {'op': 'step', 'step': action.what, 'on': self.label(action.where), 'name': action.where.name}
        if action.what == 'make_link':
            call['text'] = action.text
        if action.to:
            call.update({'to': self.label(action.to), 'new': action.to.name, 'mode': action.mode})
        self.add(action, call, self.ending(action, 'stepped done'))

    def say_path(self, action):
        if action.where.is_rewalked() or action.to and action.to.is_rewalked():
            self.note(action, REWALKED)
        call = {'op': PATH_CALLS.get(action.what, action.what), 'path': self.path(action.where)}
        if action.what == 'make_link':
            call['text'] = action.text
        if action.to:
            call = {'op': 'rename', 'from': call['path'], 'to': self.path(action.to), 'mode': action.mode}
        self.add(action, call, self.ending(action, 'text' if action.what == 'read_link' else 'done'))

    def add(self, action, call, expected):
        self.told.append((len(self.calls), action.line, action.name, expected))
        self.calls.append(call)

    # ---- what it comes to

    def names(self, attackers):
        """The names that a walk of the script can look up, but for those in texts of the tree's links. None if a call
        takes all that is in a directory."""
        calls = self.calls + [call for actor in attackers for call in actor['calls']]
        if any(call.get('op') == 'remove_all' or call.get('step') == 'list' for call in calls):
            return None
        texts = [call[key] for call in calls for key in ('path', 'from', 'to', 'name', 'new', 'text') if key in call]
        texts += [actor['root'] for actor in attackers] + [self.below]
        return {part for text in texts if isinstance(text, str) for part in parts_of(text)[0]}

    def text(self, entries, attackers):
        """The script, a call a line."""
        def shown(value):
            return json.dumps(value, ensure_ascii=False, separators=(',', ':'))
        restricted = [call for calls in [self.calls] + [actor['calls'] for actor in attackers] for call in calls
                      if 'beneath' in call or 'no_links' in call]
        own = {'root': self.below if self.root == 'root' else '/', 'calls': self.calls}
        actors = ['{"root":%s,"calls":[\n%s]}' % (shown(actor['root']), ',\n'.join(map(shown, actor['calls'])))
                  for actor in [own] + attackers]
        return '{"version":%d,\n"tree":[\n%s],\n"actors":[\n%s]}\n' % (
            2 if restricted else 1, ',\n'.join(shown(entry) for entry in entries), ',\n'.join(actors))

    def lines(self):
        """The lines of the trace that the script is made of."""
        found = set(self.of.cut)
        for action in self.kept - self.dropped:
            found |= action.lines
            for handle in action.handles() + ([action.opened] if action.opened else []):
                found |= handle.lines
        return found | {self.of.halves.get(line, line) for line in found}
