//! The rule of demand 3, told of commands.

use crate::script::Command;
use reference::{read_context, read_message, Rule};

/// Tells the rule of an accepted command. False if no rule lets such a command be accepted.
pub fn tell(rule: &mut Rule, command: &Command) -> bool {
    let told = match command {
        Command::Add { label, context, .. } => {
            read_context(context).map(|dots| rule.own_add(label, &dots))
        }
        Command::Remove { context, .. } => read_context(context).map(|dots| rule.own_remove(&dots)),
        Command::Take { message } => {
            let message = read_message(message).message;
            message.map(|message| rule.take_in(&message))
        }
        _ => Some(()),
    };
    told.is_some()
}
