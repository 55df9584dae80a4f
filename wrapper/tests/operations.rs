//! The checks as tests, each on a thread with the stack that the deepest chain of pairs needs.

#[macro_use]
mod checks;

macro_rules! test_each {
    ($($name:ident)*) => {
        $(
            #[test]
            fn $name() {
                let thread = std::thread::Builder::new().stack_size(nyelgomir::DEEPEST_STACK).spawn(checks::$name);
                thread.unwrap().join().unwrap();
            }
        )*
    };
}

each_check!(test_each);
