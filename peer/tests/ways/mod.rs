//! Ways to be wrong, each named once.

/// An enum of some ways that stand alone and of those in lists, with each list
/// as an array that has as many of them as it says.
macro_rules! ways {
    (
        $(#[$about:meta])*
        enum $name:ident { $($alone:ident $(($held:ty))?),* }
        $($(#[$note:meta])* const $list:ident: $count:literal = { $($way:ident),+ $(,)? };)+
    ) => {
        $(#[$about])*
        #[derive(Clone, Copy, Debug, PartialEq)]
        enum $name {
            $($alone $(($held))?,)*
            $($($way,)+)+
        }

        $($(#[$note])* const $list: [$name; $count] = [$($name::$way),+];)+
    };
}
