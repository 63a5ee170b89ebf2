// What the examples of the documentation call `root`: a new directory with `etc/conf`, which is removed at the end.
{
    struct Example {
        root: inroot::Root,
        top: std::path::PathBuf,
    }

    impl std::ops::Deref for Example {
        type Target = inroot::Root;
        fn deref(&self) -> &inroot::Root {
            &self.root
        }
    }

    impl Drop for Example {
        fn drop(&mut self) {
            let _ = std::fs::remove_dir_all(&self.top);
        }
    }

    let top = std::env::temp_dir().join(format!("inroot-example-{}", std::process::id()));
    std::fs::create_dir_all(top.join("etc")).unwrap();
    std::fs::write(top.join("etc/conf"), "text\n").unwrap();
    Example { root: inroot::Root::open_ambient_dir(&top).unwrap(), top }
}
