//! The calls as something that can be run: by the product, by the reference or by the
//! baseline in one of its forms.

mod baseline;
#[cfg(test)]
mod faulty;
mod product;
mod second;

pub use self::baseline::{FASTEST, PLAIN, TUNED};
#[cfg(test)]
pub use faulty::{Fault, Faulty};
pub use product::Product;
pub use second::Second;

use crate::script::{Command, Rack, Reply};

/// An implementation of the calls on blocks of state, lent stores and lent outputs.
pub trait Engine {
    /// What reports call it.
    fn name(&self) -> &'static str;

    /// Runs a command. `out` is the lent output, of the length that the command says.
    fn run(&self, rack: &mut Rack, command: &Command, out: &mut [u8]) -> Reply;

    /// Merged read of two controllers.
    fn merge(&self, first: &Rack, second: &Rack, out: &mut [u8]) -> Reply;

    /// Taking in, for the benchmark: what is timed there has no command around it.
    fn take_in(&self, rack: &mut Rack, message: &[u8]) -> u8 {
        let message = message.to_vec();
        self.run(rack, &Command::Take { message }, &mut []).answer()
    }
}
