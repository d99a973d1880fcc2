//! Rows with names.

/// Declares a struct of a relation's row, with a number for each column, and brings it from the values of a
/// row and to them. `COLUMNS` are the names, which `insert_of` and the like compare with the
/// specification's. A column whose name is a word of Rust's, as `type`, can't stand here.
///
/// ```
/// relc::row! {
///     /// An edge of the graph.
///     #[derive(Clone, Copy, Debug, PartialEq, Eq)]
///     pub struct Edge { src, dst, weight }
/// }
/// assert_eq!(Edge::COLUMNS, ["src", "dst", "weight"]);
/// let edge = Edge { src: 1, dst: 2, weight: 10 };
/// assert_eq!(<[u64; 3]>::from(edge), [1, 2, 10]);
/// assert_eq!(Edge::from([1, 2, 10]), edge);
/// ```
#[macro_export]
macro_rules! row {
    ($(#[$outer:meta])* $vis:vis struct $name:ident { $($(#[$inner:meta])* $column:ident),+ $(,)? }) => {
        $(#[$outer])*
        $vis struct $name {
            $($(#[$inner])* pub $column: u64,)+
        }

        impl $name {
            /// The names of the columns, in their order.
            pub const COLUMNS: [&'static str; [$(stringify!($column)),+].len()] =
                [$(stringify!($column)),+];
        }

        impl ::core::convert::From<[u64; $name::COLUMNS.len()]> for $name {
            fn from(values: [u64; $name::COLUMNS.len()]) -> $name {
                let [$($column),+] = values;
                $name { $($column),+ }
            }
        }

        impl ::core::convert::From<$name> for [u64; $name::COLUMNS.len()] {
            fn from(row: $name) -> [u64; $name::COLUMNS.len()] {
                [$(row.$column),+]
            }
        }
    };
}
