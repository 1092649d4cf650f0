//! What liars send: their script, what the engines of the rules that they run say, and lies about coins that they see.

use std::rc::Rc;

use super::face::Face;
use super::feeder::{Feeder, Receiver, FINISH};
use super::journal::Sent;
use super::script::Lie;
use crate::box_engine::BoxEngine;
use crate::message::Message;
use crate::settings::{Number, Round};
use crate::standing_engine::StandingEngine;

impl<E: BoxEngine + StandingEngine> Feeder<'_, E> {
    /// What all liars send ahead of everything else.
    pub(super) fn send_script(&mut self) {
        let plan = self.plan;
        for lie in &plan.script.lies {
            self.send_lie(lie);
        }
    }

    /// From every liar to the honest ones of the group.
    fn send_lie(&mut self, lie: &Lie) {
        let plan = self.plan;
        for &liar in &plan.liars {
            let version = plan.settings.version();
            let message: Rc<[u8]> = lie.message.to_bytes(version, liar, plan.session).into();
            let in_group = |number: &&Number| plan.groups[number] == lie.group;
            for &number in plan.inputs.keys().filter(in_group) {
                for _ in 0..lie.times {
                    let sent = Sent { link: liar, message: Rc::clone(&message), line: None };
                    self.send(Receiver::Honest(number), sent, lie.delay);
                }
            }
        }
    }

    /// A receiver accepted an honest one's FINISH: where that is the one that makes ta+1, all liars send it FINISHes of the
    /// other value.
    pub(super) fn contradict(&mut self, number: Number, sent: &Sent) {
        let plan = self.plan;
        let settings = &plan.settings;
        let [_, FINISH, _, vote, ..] = sent.message[..] else { return };
        if !plan.script.contradicts || plan.liars.contains(&sent.link) {
            return;
        }
        let weight = settings.weight([sent.link]);
        let before = self.finished.entry((number, vote)).or_default();
        let (least, enough) = (*before, settings.vote_relay());
        *before += weight;
        if least < enough && enough <= least + weight {
            let value = sent.message.last() == Some(&0);
            let message = Message::Finish { instance: vote, value };
            for &liar in &plan.liars {
                let bytes = message.to_bytes(settings.version(), liar, plan.session);
                let lie = Sent { link: liar, message: bytes.into(), line: None };
                self.send(Receiver::Honest(number), lie, 0);
            }
        }
    }

    /// A face turns until idle, and records the coins that it can have.
    pub(super) fn act_as_face(&mut self, face: usize) {
        loop {
            let messages = self.faces[face].act();
            messages.into_iter().for_each(|message| self.send_as_face(face, message));
            if !self.ask_as_face(face) {
                return;
            }
        }
    }

    /// A face talks to the honest ones of its group and to the faces of its group. In votes that liars lead by their coins it
    /// keeps silent.
    fn send_as_face(&mut self, face: usize, message: Vec<u8>) {
        let plan = self.plan;
        if plan.script.leads(&message) {
            return;
        }
        let Face { liar, group, .. } = self.faces[face];
        let sent = Sent { link: liar, message: message.into(), line: None };
        for &number in plan.inputs.keys() {
            if self.faces[face].talks_to(plan.groups[&number]) {
                let delay = plan.delay(&mut self.random, &sent.message, number, self.now);
                self.send(Receiver::Honest(number), sent.clone(), delay);
            }
        }
        for other in 0..self.faces.len() {
            if self.faces[other].group == group {
                self.send(Receiver::Face(other), sent.clone(), 0);
            }
        }
    }

    /// All liars lie about a vote and round whose coin they see from now on.
    pub(super) fn lie_about(&mut self, vote: Number, round: Round, coin: bool) {
        let plan = self.plan;
        let before = self.seen.before(vote, round);
        for lie in plan.script.lies_about((vote, round), coin, &before) {
            self.send_lie(&lie);
        }
    }
}
