//! Stands in for the crate rayon, so that the parallel back substitution compiles. Threads are left
//! out of the comparison: this runs everything in one part, in order.

pub mod prelude {
    pub struct Serial<I>(I);

    pub trait IntoParallelRefIterator<T> {
        fn par_iter(&self) -> Serial<std::slice::Iter<'_, T>>;
    }

    impl<T> IntoParallelRefIterator<T> for Vec<T> {
        fn par_iter(&self) -> Serial<std::slice::Iter<'_, T>> {
            Serial(self.iter())
        }
    }

    impl<I: Iterator> Serial<I> {
        /// One part, so one folded item.
        pub fn fold<A>(
            self,
            start: impl Fn() -> A,
            step: impl Fn(A, I::Item) -> A,
        ) -> Serial<std::iter::Once<A>> {
            Serial(std::iter::once(self.0.fold(start(), step)))
        }

        pub fn map<B>(self, change: impl FnMut(I::Item) -> B) -> Serial<impl Iterator<Item = B>> {
            Serial(self.0.map(change))
        }

        pub fn collect<C: FromIterator<I::Item>>(self) -> C {
            self.0.collect()
        }
    }
}
