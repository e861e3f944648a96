//! What the log says beside the calls: of leases, and of the names of cgroups. It is made of the facts and the calls of the log, here and in each copy of the
//! table.
use crate::facts::Fact;
use crate::leases::Leases;
use crate::names::Names;
use pidtab::{Call, Reply, Table};

#[derive(Default)]
pub struct Noted {
    pub leases: Leases,
    pub names: Names,
}

impl Noted {
    /// What a snapshot says.
    pub fn of(facts: &[Fact]) -> Noted {
        let mut noted = Noted::default();
        facts.iter().for_each(|it| noted.apply(it));
        noted
    }

    /// What the log says next.
    pub fn apply(&mut self, fact: &Fact) {
        match fact {
            Fact::Name { id, name } => self.names.give(*id, name),
            _ => self.leases.apply(fact),
        }
    }

    /// A call that was made. The child of a fork is the lease's.
    pub fn made(&mut self, call: Call, reply: &Reply, lease: Option<u64>) {
        match (call, reply) {
            (_, Reply::Forked(child)) => self.leases.forked(child.root, lease),
            (Call::Rm { id }, Reply::Done) => self.names.forget(id),
            _ => {}
        }
    }

    /// What a snapshot of the table has.
    pub fn facts(&self, table: &Table) -> Vec<Fact> {
        let mut facts = self.leases.facts(|task| table.stat(1, task).is_ok());
        facts.extend(self.names.facts());
        facts
    }
}
