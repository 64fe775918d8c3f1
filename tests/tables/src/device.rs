//! What serves the calls of a relation.

use device_records::Log;
use diagnosis::Diagnoses;
use pn_values::{Command, Identity, Mac, Real, Settings};
use device_records::{Sources, read_implicit, read_within};
use records::{
    Blocks, CallFault, Effect, Operation, Write, Writing, judge_write, names_relation, put_write_answer,
};
use relations::{Application, DeviceOptions, Partner, Relation};
use std::mem;

/// The station with its texts and its relation.
pub(crate) struct Device {
    identity: Identity,
    real: Real,
    settings: Settings,
    pub(crate) relation: Relation,
}

/// Who calls.
const PARTNER: Partner = Partner {
    mac: Mac {
        octets: [2, 0, 0, 0, 0, 2],
    },
    address: [192, 168, 0, 1],
};

impl Device {
    /// As it leaves the factory.
    pub(crate) fn new() -> Device {
        Device {
            identity: pn_values::demo_identity(),
            real: pn_values::demo_modules(),
            settings: Settings::factory(),
            relation: Relation::new(),
        }
    }

    /// A command of DCP or of a Write.
    pub(crate) fn carry(&mut self, command: &Command) {
        let settings = mem::replace(&mut self.settings, Settings::factory());
        self.settings = command.apply(settings);
    }

    /// A new call. Puts the blocks of its answer into an empty list.
    pub(crate) fn serve(
        &mut self,
        operation: Operation,
        blocks: &[u8],
        answer: &mut Blocks,
    ) -> Result<(), CallFault> {
        match operation {
            Operation::Connect => {
                let application = Application {
                    options: &DeviceOptions::default(),
                    is_running: true,
                    statuses: &[],
                    units: 0,
                    diagnoses: &Diagnoses::new(),
                    made: 0,
                };
                self.relation.connect(
                    &self.identity,
                    &self.real,
                    application,
                    PARTNER,
                    blocks,
                    answer,
                )
            }
            Operation::Release => self.relation.release(blocks, answer),
            Operation::Control => {
                self.relation.control(false, blocks, answer)?;
                self.restart_timer();
                Ok(())
            }
            Operation::Write => self.write(blocks, answer),
            Operation::Read => self.read(blocks, answer),
            Operation::ReadImplicit => self.read_implicit(blocks, answer),
        }
    }

    /// A Read within the relation.
    fn read(&mut self, blocks: &[u8], answer: &mut Blocks) -> Result<(), CallFault> {
        let sources = Sources {
            relation: &self.relation,
            units: 0,
            log: &Log::new(),
            identity: &self.identity,
            settings: &self.settings,
            neighbour: &None,
            diagnoses: &Diagnoses::new(),
        };
        read_within(
            &sources,
            &self.identity,
            &self.real,
            &self.settings,
            blocks,
            answer,
        )?;
        self.restart_timer();
        Ok(())
    }

    /// A Read by anybody.
    fn read_implicit(&mut self, blocks: &[u8], answer: &mut Blocks) -> Result<(), CallFault> {
        let sources = Sources {
            relation: &self.relation,
            units: 0,
            log: &Log::new(),
            identity: &self.identity,
            settings: &self.settings,
            neighbour: &None,
            diagnoses: &Diagnoses::new(),
        };
        read_implicit(
            &sources,
            &self.identity,
            &self.real,
            &self.settings,
            blocks,
            answer,
        )?;
        if names_relation(self.relation.uuid(), blocks) {
            self.restart_timer();
        }
        Ok(())
    }

    /// A Write within the relation.
    fn write(&mut self, blocks: &[u8], answer: &mut Blocks) -> Result<(), CallFault> {
        let Writing::One(Write { request, effect }) =
            judge_write(blocks, self.relation.uuid(), &self.real)?
        else {
            // The tables have no list of records.
            return Err(CallFault::Index);
        };
        match effect {
            Effect::Stores(value) => self.carry(&Command::SetIm(value)),
            Effect::Keeps(taken) => self.relation.keep(taken)?,
        }
        put_write_answer(answer, &request);
        self.restart_timer();
        Ok(())
    }

    /// A call that names the relation was answered positively.
    fn restart_timer(&mut self) {
        self.relation.hear_controller(&PARTNER, true, Ok(()));
    }
}
