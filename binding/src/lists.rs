//! What the structs of lent lists and the answers of the calls have in common.

/// A struct of lists with the room that each needs. Behind `and` stand structs of lists that are part of it.
macro_rules! lists {
    (
        $(#[$about:meta])*
        $name:ident($($room:ident: $amount:ty),*) {
            $($(#[$doc:meta])* $list:ident: [$entry:ty; $count:expr],)*
        }
        $(and { $($(#[$part_doc:meta])* $part:ident: $part_type:ident($($part_room:expr),*),)* })?
    ) => {
        $(#[$about])*
        #[derive(Clone, Debug, Default)]
        pub struct $name {
            $($(#[$doc])* pub $list: Vec<$entry>,)*
            $($($(#[$part_doc])* pub $part: $part_type,)*)?
        }

        impl $name {
            /// Lists of zeros with this room and no more.
            pub fn with_room($($room: $amount),*) -> Self {
                $name {
                    $($list: vec![<$entry>::default(); $count],)*
                    $($($part: $part_type::with_room($($part_room),*),)*)?
                }
            }

            /// Lengthens each list that has less than this room, and shortens none.
            pub fn make_room(&mut self, $($room: $amount),*) {
                $($crate::lists::lengthen(&mut self.$list, $count);)*
                $($(self.$part.make_room($($part_room),*);)*)?
            }
        }

        impl $crate::testing::Lists for $name {
            fn lists(&mut self) -> Vec<$crate::testing::List<'_>> {
                #[allow(unused_mut)]
                let mut all = vec![$($crate::testing::List::from(&mut self.$list)),*];
                $($(all.extend($crate::testing::Lists::lists(&mut self.$part));)*)?
                all
            }
        }
    };
}

/// What a call answers: the number of the first missed question, 0 where none is, and more.
macro_rules! answer {
    ($(#[$about:meta])* $name:ident { $($(#[$doc:meta])* $field:ident: $type:ty,)* }) => {
        $(#[$about])*
        #[repr(C)]
        #[derive(Clone, Copy, Debug, Default, PartialEq)]
        pub struct $name {
            /// The number of the first missed question; 0 where none is, and everything else 0 where
            /// one is.
            pub number: u32,
            $($(#[$doc])* pub $field: $type,)*
        }

        impl $name {
            /// The answer, unless a question was missed.
            pub fn accepted(self) -> Result<Self, $crate::Question> {
                $crate::question::accepted(self.number)?;
                Ok(self)
            }
        }
    };
}

pub(crate) use {answer, lists};

pub fn lengthen<T: Clone + Default>(list: &mut Vec<T>, count: usize) {
    if list.len() < count {
        list.resize(count, T::default());
    }
}
