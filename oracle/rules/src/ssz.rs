//! Stand-ins for the containers of ssz: vectors without a limit. The limits of document 01 are
//! judged afterwards, on the result.
pub mod prelude {
    use std::ops::{Deref, DerefMut};

    macro_rules! backed_by_vec {
        ($name:ident) => {
            #[derive(Clone, Debug, Default, PartialEq, Eq)]
            pub struct $name<T, const N: usize>(pub Vec<T>);

            impl<T, const N: usize> Deref for $name<T, N> {
                type Target = Vec<T>;

                fn deref(&self) -> &Vec<T> {
                    &self.0
                }
            }

            impl<T, const N: usize> DerefMut for $name<T, N> {
                fn deref_mut(&mut self) -> &mut Vec<T> {
                    &mut self.0
                }
            }

            impl<T, const N: usize> AsRef<[T]> for $name<T, N> {
                fn as_ref(&self) -> &[T] {
                    &self.0
                }
            }
        };
    }

    backed_by_vec!(List);
    backed_by_vec!(Vector);

    #[derive(Clone, Debug, Default, PartialEq, Eq)]
    pub struct Bitvector<const N: usize>;
}
