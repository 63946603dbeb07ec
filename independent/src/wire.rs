//! RDATA, taken from the left.

use crate::Fault;

/// The octets not yet taken.
pub struct Wire<'a> {
    rest: &'a [u8],
}

impl<'a> Wire<'a> {
    pub fn new(octets: &'a [u8]) -> Self {
        Wire { rest: octets }
    }

    pub fn rest(&self) -> &'a [u8] {
        self.rest
    }

    pub fn is_empty(&self) -> bool {
        self.rest.is_empty()
    }

    /// "On the wire an absent octet is 8 at its turn".
    pub fn take(&mut self, count: usize) -> Result<&'a [u8], Fault> {
        let (taken, rest) = self.rest.split_at_checked(count).ok_or(Fault::Ends)?;
        self.rest = rest;
        Ok(taken)
    }

    /// As many octets as an array holds.
    pub fn array<const COUNT: usize>(&mut self) -> Result<[u8; COUNT], Fault> {
        let (&taken, rest) = self.rest.split_first_chunk().ok_or(Fault::Ends)?;
        self.rest = rest;
        Ok(taken)
    }

    pub fn octet(&mut self) -> Result<u8, Fault> {
        self.array().map(|[octet]| octet)
    }

    /// A count octet, then octets (S, and X[C] as of document 02, request 1:
    /// "From now on count 0 is accepted").
    pub fn counted(&mut self) -> Result<&'a [u8], Fault> {
        let count = self.octet()?;
        self.take(usize::from(count))
    }

    /// "count 1 to 255" (B32): a rule "is judged at the last octet it needs",
    /// here the count. Document 02, request 1: "B32 keeps its minimum of 1."
    pub fn counted_from_one(&mut self) -> Result<&'a [u8], Fault> {
        match self.octet()? {
            0 => Err(Fault::Breaks),
            count => self.take(usize::from(count)),
        }
    }

    /// All octets that are left, "one or more".
    pub fn all_from_one(&mut self) -> Result<&'a [u8], Fault> {
        if self.is_empty() {
            return Err(Fault::Ends);
        }
        Ok(std::mem::take(&mut self.rest))
    }
}
