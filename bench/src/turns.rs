//! Contenders that take turns on one stage.

use crate::inputs::Input;
use crate::measure::{contender, Contender};
use crate::stage::Stage;
use std::cell::RefCell;
use std::rc::Rc;

/// With a stage for each, their bytes would lie differently in the caches, and
/// with much user data that makes more of a difference than their code does.
pub struct Turns(Rc<RefCell<Stage>>);

impl Turns {
    pub fn on(input: &Input) -> Turns {
        Turns(Rc::new(RefCell::new(Stage::new(input))))
    }

    /// Library and Rust.
    pub fn activity(&self, recorded: bool) -> Vec<Contender<'static>> {
        vec![
            self.contender(move |stage| stage.library(recorded)),
            self.contender(move |stage| stage.decoder(recorded)),
        ]
    }

    /// Putting back the few numbers is within the time, for all alike.
    pub fn contender<R>(&self, call: impl Fn(&mut Stage) -> R + 'static) -> Contender<'static> {
        let stage = Rc::clone(&self.0);
        contender(move || {
            let stage = &mut stage.borrow_mut();
            stage.again();
            call(stage)
        })
    }
}
