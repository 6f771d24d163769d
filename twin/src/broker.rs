//! The commands. Each tests its refusals in the order of document 01's table
//! "Order of tests and effect" and changes nothing when it refuses.

use crate::refusal::Refusal;
use crate::table::{
    Lease, LeaseId, Owner, Port, Publication, PublicationId, Store, LEASES, PUBLICATIONS,
};

/// What reading a lease tells.
#[derive(Clone, Copy, PartialEq, Eq, Debug)]
pub struct Reading {
    pub id: PublicationId,
    pub revision: u64,
    pub payload: u64,
}

impl Store {
    /// 7, 3; else a new visible, retained record at the next identifier.
    pub fn publish(
        &mut self,
        owner: Owner,
        generation: u64,
        port: Port,
        payload: u64,
    ) -> Result<PublicationId, Refusal> {
        if self.publications.len() >= PUBLICATIONS {
            return Err(Refusal::Capacity);
        }
        if self.visible_on(port).is_some() {
            return Err(Refusal::Conflict);
        }
        let id = PublicationId(self.publications.len() as u64);
        self.publications.push(Publication {
            owner,
            generation,
            port,
            visible: true,
            retained: true,
            revision: 0,
            payload,
        });
        Ok(id)
    }

    /// 1, 6, 8, 4; else the generation becomes 1.
    pub fn adopt(
        &mut self,
        id: PublicationId,
        owner: Owner,
        generation: u64,
    ) -> Result<(), Refusal> {
        let relied = self.is_relied_on(id);
        let publication = self.publication_mut(id).ok_or(Refusal::Unknown)?;
        if !publication.retained {
            return Err(Refusal::Released);
        }
        if publication.owner != owner || publication.generation != 0 || generation != 1 {
            return Err(Refusal::InvalidState);
        }
        if relied {
            return Err(Refusal::Relied);
        }
        publication.generation = 1;
        Ok(())
    }

    /// 1, 2, 7; else the lease is the counter, which goes up by 1.
    pub fn acquire(
        &mut self,
        id: PublicationId,
        owner: Owner,
        generation: u64,
    ) -> Result<LeaseId, Refusal> {
        let publication = self.publication(id).ok_or(Refusal::Unknown)?;
        if !publication.visible {
            return Err(Refusal::Revoked);
        }
        if self.leases.len() >= LEASES {
            return Err(Refusal::Capacity);
        }
        let risen = self.counter.checked_add(1).ok_or(Refusal::Capacity)?;
        let lease = LeaseId(self.counter);
        self.counter = risen;
        self.leases.push(Lease {
            id: lease,
            publication: id,
            consumer: (owner, generation),
        });
        Ok(lease)
    }

    /// 1, 6; else the lease is active no more.
    pub fn release(&mut self, lease: LeaseId) -> Result<(), Refusal> {
        if lease.0 >= self.counter {
            return Err(Refusal::Unknown);
        }
        let place = self.place_of(lease).ok_or(Refusal::Released)?;
        self.leases.remove(place);
        Ok(())
    }

    /// 1; else visible no more. Revoking again is allowed, on reclaimed ones too.
    pub fn revoke(&mut self, id: PublicationId) -> Result<(), Refusal> {
        let publication = self.publication_mut(id).ok_or(Refusal::Unknown)?;
        publication.visible = false;
        Ok(())
    }

    /// 1, 8, 2, 7; else the new handle is stored and the earlier one returned.
    pub fn replace(
        &mut self,
        id: PublicationId,
        owner: Owner,
        generation: u64,
        payload: u64,
    ) -> Result<u64, Refusal> {
        let publication = self.publication_mut(id).ok_or(Refusal::Unknown)?;
        if publication.owner != owner || publication.generation != generation {
            return Err(Refusal::InvalidState);
        }
        if !publication.visible {
            return Err(Refusal::Revoked);
        }
        let risen = publication
            .revision
            .checked_add(1)
            .ok_or(Refusal::Capacity)?;
        publication.revision = risen;
        Ok(std::mem::replace(&mut publication.payload, payload))
    }

    /// 1, 5, 6, 4; else retained no more: the handle is returned and its cell is 0.
    pub fn reclaim(&mut self, id: PublicationId) -> Result<u64, Refusal> {
        let relied = self.is_relied_on(id);
        let publication = self.publication_mut(id).ok_or(Refusal::Unknown)?;
        if publication.visible {
            return Err(Refusal::Visible);
        }
        if !publication.retained {
            return Err(Refusal::Released);
        }
        if relied {
            return Err(Refusal::Relied);
        }
        publication.retained = false;
        Ok(std::mem::replace(&mut publication.payload, 0))
    }

    /// 1, 6; else what the lease's publication holds now.
    pub fn read(&self, lease: LeaseId) -> Result<Reading, Refusal> {
        if lease.0 >= self.counter {
            return Err(Refusal::Unknown);
        }
        let active = self.leases.iter().find(|active| active.id == lease);
        let id = active.ok_or(Refusal::Released)?.publication;
        // An active lease's publication is there and retained (S4).
        let publication = self.publication(id).ok_or(Refusal::Released)?;
        Ok(Reading {
            id,
            revision: publication.revision,
            payload: publication.payload,
        })
    }

    /// 10 when unknown or reclaimed; else revision and handle.
    pub fn observe(&self, id: PublicationId) -> Result<(u64, u64), Refusal> {
        match self.publication(id) {
            Some(publication) if publication.retained => {
                Ok((publication.revision, publication.payload))
            }
            _ => Err(Refusal::Absent),
        }
    }

    /// 10; else the visible publication on the port.
    pub fn resolve(&self, port: Port) -> Result<PublicationId, Refusal> {
        self.visible_on(port).ok_or(Refusal::Absent)
    }

    /// The number of retained publications; never refused.
    pub fn count(&self) -> u64 {
        self.publications.iter().filter(|one| one.retained).count() as u64
    }
}
