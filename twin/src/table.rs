//! The table: publications, leases and the questions asked of them.
//!
//! A publication's identifier is its place in the vector. Its slot always equals
//! its identifier (S5), so no slot is kept beside it.

/// Most publications in a store, reclaimed ones included.
pub const PUBLICATIONS: usize = 96;
/// Most active leases in a store.
pub const LEASES: usize = 128;

#[derive(Clone, Copy, PartialEq, Eq, Debug)]
pub struct PublicationId(pub u64);

#[derive(Clone, Copy, PartialEq, Eq, Debug)]
pub struct LeaseId(pub u64);

#[derive(Clone, Copy, PartialEq, Eq, Debug)]
pub struct Owner(pub u64);

#[derive(Clone, Copy, PartialEq, Eq, Debug)]
pub struct Port(pub u32);

#[derive(Clone, PartialEq, Eq, Debug)]
pub struct Publication {
    pub owner: Owner,
    pub generation: u64,
    pub port: Port,
    pub visible: bool,
    pub retained: bool,
    pub revision: u64,
    pub payload: u64,
}

/// An active lease. The consumer is recorded only; no answer shows it.
#[derive(Clone, PartialEq, Eq, Debug)]
pub struct Lease {
    pub id: LeaseId,
    pub publication: PublicationId,
    pub consumer: (Owner, u64),
}

/// The empty store is `Store::default()`.
#[derive(Clone, PartialEq, Eq, Debug, Default)]
pub struct Store {
    pub publications: Vec<Publication>,
    /// Active leases only, in the order in which they were given out.
    pub leases: Vec<Lease>,
    /// The next lease's identifier; it only rises.
    pub counter: u64,
}

impl Store {
    /// The publication, reclaimed or not; none at or above their number.
    pub fn publication(&self, id: PublicationId) -> Option<&Publication> {
        self.publications.get(usize::try_from(id.0).ok()?)
    }

    /// The same, to be changed.
    pub fn publication_mut(&mut self, id: PublicationId) -> Option<&mut Publication> {
        self.publications.get_mut(usize::try_from(id.0).ok()?)
    }

    /// Where the active lease stands among the leases.
    pub fn place_of(&self, lease: LeaseId) -> Option<usize> {
        self.leases.iter().position(|active| active.id == lease)
    }

    /// The visible publication on a port.
    pub fn visible_on(&self, port: Port) -> Option<PublicationId> {
        let place = self
            .publications
            .iter()
            .position(|one| one.visible && one.port == port)?;
        Some(PublicationId(place as u64))
    }

    /// Whether an active lease names the publication.
    pub fn is_relied_on(&self, id: PublicationId) -> bool {
        self.leases.iter().any(|active| active.publication == id)
    }
}
