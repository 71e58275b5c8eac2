//! How the program ends where it is not done.

use std::process::ExitCode;

use cikolaro::{node, Error, Refusal};

pub enum Failure {
    Absent,
    Usage(String),
    File(String),
    Refused(Error),
    /// Node bytes, refused at a place.
    RefusedAt(node::Refused),
}

/// The exit status for a refusal.
fn status(refusal: Refusal) -> u8 {
    match refusal {
        Refusal::NotStore | Refusal::Fails => 5,
        Refusal::NoRoom => 6,
        _ => 4,
    }
}

impl Failure {
    fn status(&self) -> u8 {
        match self {
            Failure::Absent => 1,
            Failure::Usage(_) => 2,
            Failure::File(_) => 3,
            Failure::Refused(error) => status(error.refusal),
            Failure::RefusedAt(refused) => status(refused.refusal),
        }
    }

    /// Tells the user, and gives the exit status.
    pub fn told(&self) -> ExitCode {
        match self {
            Failure::Absent => eprintln!("cikolaro: absent"),
            Failure::Usage(text) => eprintln!("cikolaro: {text}; see cikolaro --help"),
            Failure::File(text) => eprintln!("cikolaro: {text}"),
            Failure::Refused(error) => {
                println!("refused\t{}\t{}", error.refusal.number(), error.applied);
                eprintln!("cikolaro: {}", error.refusal);
            }
            Failure::RefusedAt(refused) => {
                println!("refused\t{}\t{}", refused.refusal.number(), refused.place);
                eprintln!("cikolaro: {refused}");
            }
        }
        ExitCode::from(self.status())
    }
}

impl From<Refusal> for Failure {
    fn from(refusal: Refusal) -> Failure {
        Failure::Refused(refusal.into())
    }
}

impl From<Error> for Failure {
    fn from(error: Error) -> Failure {
        Failure::Refused(error)
    }
}

impl From<node::Refused> for Failure {
    fn from(refused: node::Refused) -> Failure {
        Failure::RefusedAt(refused)
    }
}
