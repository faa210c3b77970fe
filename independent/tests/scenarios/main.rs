//! Scenarios that run on the independent program and on the proved core alike.

mod accepting;
mod announces;
mod asking;
mod blobs;
mod easy_to_get_wrong;
mod edges;
mod host;
mod keepalives;
mod links;
mod marks;
mod packets;
mod rates;
mod reasons;
mod recordings;
mod renumbering;
mod returns;
mod saved;
mod settings;
mod sizes;
mod survey;
mod tables;

/// Makes a test of each scenario on the independent program, with either check of refusal 7, and on the core, so that the name of a failing
/// one says which. On a program with the fault that it names, a scenario must fail.
macro_rules! on_both_programs {
    ($($scenario:ident($fault:ident),)*) => {
        $(
            mod $scenario {
                use crate::host::Host;
                use haskumye_independent::{faults, linked::Core, relay::Relay, rules::Tuned};

                #[test]
                fn independent_program() {
                    super::$scenario(&mut Host::new(Relay::as_written()));
                    super::$scenario(&mut Host::new(Relay::new(Tuned)));
                }

                #[test]
                fn core() {
                    super::$scenario(&mut Host::new(Core));
                }

                #[test]
                #[should_panic(expected = "assertion")]
                fn notices_its_fault() {
                    super::$scenario(&mut Host::new(faults::$fault.relay()));
                }
            }
        )*
    };
}
pub(crate) use on_both_programs;
