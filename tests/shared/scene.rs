//! What a lead meets in a tick, before it becomes bytes.

use second::frames::{CarStatus, CONTACTOR_OPEN, ENABLED};
use second::inputs::LeadInput;
use second::lead::contact::{CHARGE_PERMISSION, CONNECTOR_LOCK, PLUG, START_BUTTON};
use second::lead::Rating;
use second::readings::Tenths;

pub const CLOSED: u8 = PLUG | CHARGE_PERMISSION | CONNECTOR_LOCK;

/// The status of a car that is ready but for its contactor.
pub const NOT_READY: u8 = ENABLED | CONTACTOR_OPEN;

/// What a car says of itself through a session.
#[derive(Clone, Copy)]
pub struct Car {
    pub maximum_voltage: u16,
    pub target_voltage: u16,
    pub request: u8,
    /// Bytes 1 and 2 of H'101.
    pub time: (u8, u8),
}

impl Car {
    pub const fn new(maximum: u16, target: u16, request: u8, time: (u8, u8)) -> Car {
        Car {
            maximum_voltage: maximum,
            target_voltage: target,
            request,
            time,
        }
    }
}

#[derive(Clone, Copy, Default)]
pub struct Scene {
    pub contacts: u8,
    pub volts: Option<f32>,
    pub amperes: Option<f32>,
    pub ohms: Option<f32>,
    pub maximum_voltage: Option<u16>,
    pub time: Option<(u8, u8)>,
    pub status: Option<CarStatus>,
}

impl Scene {
    pub fn empty(contacts: u8) -> Scene {
        Scene::default().close(contacts)
    }

    /// With this, a lead goes on from the phase. Phase 6 has no way on but a stop: there the lead
    /// charges.
    pub fn onward(phase: u8, command: u8, car: &Car) -> Scene {
        let scene = Scene::empty(CLOSED);
        let volts = f32::from(car.target_voltage) - 0.75;
        let amperes = f32::from(command);
        match phase {
            0 => Scene::empty(PLUG | START_BUTTON),
            1 => Scene {
                maximum_voltage: Some(car.maximum_voltage),
                time: Some(car.time),
                ..scene.open(CONNECTOR_LOCK).says(car, NOT_READY)
            },
            2 => scene.says(car, NOT_READY),
            3 => scene.reads(volts, 0.0).gives(2e6).says(car, NOT_READY),
            4 => scene.reads(9.5, 0.0).says(car, NOT_READY),
            5 => scene.reads(volts, 0.0).says(car, ENABLED),
            6 => scene.reads(volts, amperes).says(car, ENABLED),
            7 => scene.reads(volts, amperes).says(car, 0),
            8 => scene.reads(volts, 0.5).says(car, CONTACTOR_OPEN),
            9 => Scene::empty(PLUG | CONNECTOR_LOCK).reads(3.5, 0.0),
            _ => Scene::empty(0),
        }
    }

    /// With this, a lead stays in the phase.
    pub fn waiting(phase: u8, command: u8, car: &Car) -> Scene {
        let onward = Scene::onward(phase, command, car);
        match phase {
            0 | 10 => Scene::empty(PLUG),
            1 => onward.open(CHARGE_PERMISSION),
            2 => onward.open(CONNECTOR_LOCK),
            3 => onward.gives(None),
            4 => onward.reads(10.5, 0.0),
            5 => onward.says(car, NOT_READY),
            7 => onward.reads(30.0, 4.95),
            8 => onward.says(car, 0),
            9 => onward.reads(45.5, 0.0),
            _ => onward,
        }
    }

    pub fn close(mut self, contacts: u8) -> Scene {
        self.contacts |= contacts;
        self
    }

    pub fn open(mut self, contacts: u8) -> Scene {
        self.contacts &= !contacts;
        self
    }

    pub fn reads(mut self, volts: f32, amperes: f32) -> Scene {
        (self.volts, self.amperes) = (Some(volts), Some(amperes));
        self
    }

    /// As meters show it that read too little by all of their errors: the upper ends, which are
    /// judged, are what the scene says.
    pub fn less_errors(mut self, rating: &Rating) -> Scene {
        let less = |value: f32, error: Tenths| {
            let error = error.0 as f32 / Tenths::IN_A_WHOLE as f32;
            (value - error).max(0.0)
        };
        self.volts = self.volts.map(|volts| less(volts, rating.volts_error));
        let amperes = self.amperes;
        self.amperes = amperes.map(|amperes| less(amperes, rating.amperes_error));
        self
    }

    /// A result of the insulation test, or none.
    pub fn gives(mut self, ohms: impl Into<Option<f32>>) -> Scene {
        self.ohms = ohms.into();
        self
    }

    pub fn says(mut self, car: &Car, status: u8) -> Scene {
        self.status = Some(CarStatus {
            target_voltage: car.target_voltage,
            requested_amperes: car.request,
            faults: 0,
            status,
        });
        self
    }

    /// Changes the H'102, if there is one.
    pub fn status(mut self, change: impl Fn(&mut CarStatus)) -> Scene {
        self.status.iter_mut().for_each(change);
        self
    }

    pub fn silent(mut self) -> Scene {
        self.status = None;
        self
    }

    pub fn build(&self) -> LeadInput {
        let mut all = LeadInput::new(self.contacts);
        all = self.volts.map_or(all, |volts| all.volts(volts));
        all = self.amperes.map_or(all, |amperes| all.amperes(amperes));
        all = self.ohms.map_or(all, |ohms| all.ohms(ohms));
        let maximum = self.maximum_voltage;
        all = maximum.map_or(all, |volts| all.maximum_voltage(volts));
        all = self.time.map_or(all, |(a, b)| all.charging_time(a, b));
        self.status.map_or(all, |car| {
            let (target, request) = (car.target_voltage, car.requested_amperes);
            all.status(target, request, car.faults, car.status)
        })
    }
}
