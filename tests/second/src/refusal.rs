//! A numbered refusal and its place, as in document 01's table.

#[derive(Clone, Copy, PartialEq, Eq, Debug)]
pub struct Refusal {
    pub number: u64,
    pub place: u64,
}

impl Refusal {
    pub fn at(number: u64, place: usize) -> Refusal {
        Refusal { number, place: place as u64 }
    }
}
