//! The calls of the interface, each with its numbers. Their buffers are lent beside them.

/// Makes `Call`, and `Kind` of its names alone.
macro_rules! calls {
    ($($name:ident $({ $($number:ident: $type:ty),* })?,)*) => {
        /// A call and its numbers.
        #[derive(Clone, Copy, Debug, PartialEq, Eq)]
        pub enum Call {
            $($name $({ $($number: $type),* })?,)*
        }

        /// A call without its numbers.
        #[derive(Clone, Copy, Debug, PartialEq, Eq, PartialOrd, Ord)]
        pub enum Kind {
            $($name,)*
        }

        impl Kind {
            pub const ALL: &[Kind] = &[$(Kind::$name,)*];
        }

        impl Call {
            pub fn kind(&self) -> Kind {
                match self {
                    $(Call::$name { .. } => Kind::$name,)*
                }
            }
        }
    };
}

calls! {
    Version,
    Start { n: u8, own: u8 },
    Read { server: u8, phone: u8, cell: u16 },
    ReadCut { server: u8, phone: u8, cell: u16, stores: u32 },
    Write { server: u8, phone: u8, cell: u16, value: u32, time: u32 },
    WriteCut { server: u8, phone: u8, cell: u16, value: u32, time: u32, stores: u32 },
    Update { server: u8 },
    Cut { server: u8 },
    Recover { server: u8 },
    Judge,
    Status,
    LookUp { origin: u8, number: u32 },
    Message,
    MessageCheck,
    MessageWrite { n: u8, sender: u8 },
    MessageFirst,
    MessageNext { at: usize },
    SessionStart { choice: u8 },
    SessionRaise,
    SessionRaiseWritten,
    SessionAsks,
}
