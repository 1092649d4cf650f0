//! 01, rules 3 to 5, and the output of a broadcast.

use std::collections::BTreeMap;

use crate::message::Message;
use crate::session::Session;
use crate::settings::Number;

impl Session {
    /// Rule 3: SEND of the own input, once.
    pub(crate) fn send_input(&mut self) -> Option<Message> {
        if self.send_sent {
            return None;
        }
        self.send_sent = true;
        Some(Message::Send { value: self.input })
    }

    /// Rule 4: ECHO of the value in the instance's SEND, once for each instance.
    pub(crate) fn send_echo(&mut self) -> Option<Message> {
        let (instance, value) = self
            .settings
            .numbers()
            .filter(|instance| !self.echoes_sent.contains(instance))
            .find_map(|instance| Some((instance, self.records.send(instance)?)))?;
        self.echoes_sent.insert(instance);
        Some(Message::Echo { instance, value })
    }

    /// Rule 5: READY, once for each instance.
    pub(crate) fn send_ready(&mut self) -> Option<Message> {
        let (instance, value) = self
            .settings
            .numbers()
            .filter(|instance| !self.readies_sent.contains(instance))
            .find_map(|instance| Some((instance, self.ready_value(instance)?)))?;
        self.readies_sent.insert(instance);
        Some(Message::Ready { instance, value })
    }

    /// A value with ECHOs of W−ts, else one with READYs of ts+1.
    fn ready_value(&self, instance: Number) -> Option<u64> {
        let settings = &self.settings;
        self.records
            .echoed(instance, settings, settings.quorum())
            .or_else(|| self.records.readied(instance, settings, settings.relay()))
    }

    /// A broadcast has output v when READYs of W−ts hold v.
    pub(crate) fn output(&self, instance: Number) -> Option<u64> {
        self.records.readied(instance, &self.settings, self.settings.quorum())
    }

    /// The outputs there are, by instance.
    pub(crate) fn outputs(&self) -> BTreeMap<Number, u64> {
        self.settings
            .numbers()
            .filter_map(|instance| Some((instance, self.output(instance)?)))
            .collect()
    }
}
