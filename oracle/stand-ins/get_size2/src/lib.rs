//! Stand-in for `get_size2`: sizes are asked for by a log message alone.

pub use get_size2_derive::GetSize;

pub trait GetSize {
    fn get_size(&self) -> usize {
        size_of_val(self)
    }
}
