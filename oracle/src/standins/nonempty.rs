//! Stands in for the crate `nonempty`: the members of an enumerated entity
//! type, which no result looks at.

#[derive(Clone, Debug)]
pub struct NonEmpty<T> {
    pub head: T,
    pub tail: Vec<T>,
}

impl<T> NonEmpty<T> {
    pub fn new(head: T) -> NonEmpty<T> {
        NonEmpty {
            head,
            tail: Vec::new(),
        }
    }
}
