//! A command of the trace: its op word, its keys, and the values that its answer
//! shows.

use crate::refusal::Refusal;
use crate::table::{LeaseId, Owner, Port, PublicationId, Store};

#[derive(Clone, Copy, PartialEq, Eq, Debug)]
pub enum Op {
    Publish,
    Adopt,
    Acquire,
    Release,
    Revoke,
    Replace,
    Reclaim,
    Read,
    Observe,
    Resolve,
    Count,
}

/// One row per command: the op, its word, and its keys in order.
pub const ROWS: [(Op, &str, &[&str]); 11] = [
    (
        Op::Publish,
        "publish",
        &["owner", "generation", "port", "payload"],
    ),
    (Op::Adopt, "adopt", &["id", "owner", "generation"]),
    (Op::Acquire, "acquire", &["id", "owner", "generation"]),
    (Op::Release, "release", &["lease"]),
    (Op::Revoke, "revoke", &["id"]),
    (
        Op::Replace,
        "replace",
        &["id", "owner", "generation", "payload"],
    ),
    (Op::Reclaim, "reclaim", &["id"]),
    (Op::Read, "read", &["lease"]),
    (Op::Observe, "observe", &["id"]),
    (Op::Resolve, "resolve", &["port"]),
    (Op::Count, "count", &[]),
];

#[derive(Clone, Copy, PartialEq, Eq, Debug)]
pub enum Command {
    Publish {
        owner: Owner,
        generation: u64,
        port: Port,
        payload: u64,
    },
    Adopt {
        id: PublicationId,
        owner: Owner,
        generation: u64,
    },
    Acquire {
        id: PublicationId,
        owner: Owner,
        generation: u64,
    },
    Release {
        lease: LeaseId,
    },
    Revoke {
        id: PublicationId,
    },
    Replace {
        id: PublicationId,
        owner: Owner,
        generation: u64,
        payload: u64,
    },
    Reclaim {
        id: PublicationId,
    },
    Read {
        lease: LeaseId,
    },
    Observe {
        id: PublicationId,
    },
    Resolve {
        port: Port,
    },
    Count,
}

impl Command {
    /// The command with these values, in the order of its keys. None when they are
    /// too few or too many, or a port is wider than 32 bits.
    pub fn from_values(op: Op, values: &[u64]) -> Option<Command> {
        Some(match (op, values) {
            (Op::Publish, &[owner, generation, port, payload]) => Command::Publish {
                owner: Owner(owner),
                generation,
                port: Port(u32::try_from(port).ok()?),
                payload,
            },
            (Op::Adopt, &[id, owner, generation]) => Command::Adopt {
                id: PublicationId(id),
                owner: Owner(owner),
                generation,
            },
            (Op::Acquire, &[id, owner, generation]) => Command::Acquire {
                id: PublicationId(id),
                owner: Owner(owner),
                generation,
            },
            (Op::Release, &[lease]) => Command::Release {
                lease: LeaseId(lease),
            },
            (Op::Revoke, &[id]) => Command::Revoke {
                id: PublicationId(id),
            },
            (Op::Replace, &[id, owner, generation, payload]) => Command::Replace {
                id: PublicationId(id),
                owner: Owner(owner),
                generation,
                payload,
            },
            (Op::Reclaim, &[id]) => Command::Reclaim {
                id: PublicationId(id),
            },
            (Op::Read, &[lease]) => Command::Read {
                lease: LeaseId(lease),
            },
            (Op::Observe, &[id]) => Command::Observe {
                id: PublicationId(id),
            },
            (Op::Resolve, &[port]) => Command::Resolve {
                port: Port(u32::try_from(port).ok()?),
            },
            (Op::Count, &[]) => Command::Count,
            _ => return None,
        })
    }

    /// Carries the command out. The answer is the keys and values that follow
    /// `answer=0`, or the refusal.
    pub fn carry_out(self, store: &mut Store) -> Answer {
        match self {
            Command::Publish {
                owner,
                generation,
                port,
                payload,
            } => {
                let id = store.publish(owner, generation, port, payload)?;
                Ok(vec![("id", id.0)])
            }
            Command::Adopt {
                id,
                owner,
                generation,
            } => {
                store.adopt(id, owner, generation)?;
                Ok(vec![])
            }
            Command::Acquire {
                id,
                owner,
                generation,
            } => {
                let lease = store.acquire(id, owner, generation)?;
                Ok(vec![("lease", lease.0)])
            }
            Command::Release { lease } => {
                store.release(lease)?;
                Ok(vec![])
            }
            Command::Revoke { id } => {
                store.revoke(id)?;
                Ok(vec![])
            }
            Command::Replace {
                id,
                owner,
                generation,
                payload,
            } => {
                let earlier = store.replace(id, owner, generation, payload)?;
                Ok(vec![("payload", earlier)])
            }
            Command::Reclaim { id } => {
                let payload = store.reclaim(id)?;
                Ok(vec![("payload", payload)])
            }
            Command::Read { lease } => {
                let now = store.read(lease)?;
                Ok(vec![
                    ("id", now.id.0),
                    ("revision", now.revision),
                    ("payload", now.payload),
                ])
            }
            Command::Observe { id } => {
                let (revision, payload) = store.observe(id)?;
                Ok(vec![("revision", revision), ("payload", payload)])
            }
            Command::Resolve { port } => {
                let id = store.resolve(port)?;
                Ok(vec![("id", id.0)])
            }
            Command::Count => Ok(vec![("count", store.count())]),
        }
    }
}

/// The lines after `answer=0`, or why it was refused.
pub type Answer = Result<Vec<(&'static str, u64)>, Refusal>;

/// The answer's number: 0 when carried out.
pub fn number(answer: &Answer) -> u8 {
    match answer {
        Ok(_) => 0,
        Err(refusal) => refusal.number(),
    }
}
