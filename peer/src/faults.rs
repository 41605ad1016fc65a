//! Ways in which a stand-in can be made wrong.

/// An enum with all its variants in a list.
macro_rules! faults {
    ($($(#[$about:meta])* $fault:ident,)+) => {
        #[derive(Clone, Copy, Debug, PartialEq, Eq)]
        pub enum Fault {
            $($(#[$about])* $fault,)+
        }

        impl Fault {
            pub const ALL: &'static [Fault] = &[$(Fault::$fault,)+];
        }
    };
}

pub(crate) use faults;
