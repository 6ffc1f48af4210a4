//! The proved library, linked as libboard.a and liblaboratory.a: the declarations of include/converter.h, and the traits
//! over them. `bool` is declared as a byte here, so that no byte the archive stores can be undefined.

use model::{sheet, Converter, Figures, Laboratory, Reading};

macro_rules! record {
    ($name:ident { $($field:ident: $kind:ty),* $(,)? }) => {
        #[derive(Clone, Copy, Debug, Default, PartialEq)]
        #[repr(C)]
        pub struct $name { $(pub $field: $kind),* }
    };
}

record!(Cell { cofs: i64, cgai: i64, cmin: i64, cmax: i64 });
record!(TemperaturePoint { ct: i64, cto: i64, ctg: i64 });
record!(Temperature { ctn: u8, points: [TemperaturePoint; 5] });
record!(LinearityPoint { clx: i64, clk: i64 });
record!(Linearity { cln: u8, points: [LinearityPoint; 7] });
record!(System { sofs: i64, sgai: i64, smin: i64, smax: i64, sz: i64 });
record!(Filter { fflv: i64, ffst: i64 });
record!(Calibration { cell: Cell, temperature: Temperature, linearity: Linearity, system: System, filter: Filter });
record!(Values { craw: i64, cell: i64, sraw: i64, sys: i64, stat: u16 });
record!(Setup { figures: Calibration, copy: Calibration, station: u8 });
record!(Readings { any: u8, input: i64, elec: i64, temp: i64, values: Values, peak: i64, trof: i64 });
record!(Snapshot { taken: u8, sysn: i64 });
record!(State { readings: Readings, flag: u16, snapshot: Snapshot });
record!(Device { setup: Setup, state: State });
record!(Outcome { number: u8, device: Device });
record!(Report { sys: f32, peak: f32, trof: f32, cell: f32 });
record!(Reported { number: u8, report: Report });
record!(Answered { number: u8, length: usize });
record!(Sample { elec: i64, temp: i64, integrity: u8 });
record!(Samples { one: Sample, two: Sample, three: Sample, four: Sample });
record!(Weights { one: i64, two: i64, three: i64, four: i64, total: i64, left: i64, right: i64, difference: i64 });
record!(Weighed { number: u8, weights: Weights });
record!(Identity { serial: i64, day: i64 });
record!(Contents { number: u8, form: u8, identity: Identity, figures: Calibration });
record!(Written { number: u8, length: usize });
record!(MovedBack { number: u8, length: usize, identity: Identity });

extern "C" {
    fn converter_make(sheet: *const u8, length: usize, station: u8) -> Outcome;
    fn converter_reading(device: *mut Device, elec: i64, temp: i64, integrity: u8) -> u8;
    fn converter_probe(device: *mut Device, elec: i64, resistance: i64, integrity: u8) -> u8;
    fn converter_report(device: *const Device) -> Reported;
    fn converter_frame(device: *mut Device, frame: *const u8, length: usize, reply: *mut u8, room: usize) -> Answered;
    fn converter_weigh(
        one: *mut Device,
        two: *mut Device,
        three: *mut Device,
        four: *mut Device,
        samples: *const Samples,
    ) -> Weighed;
    fn converter_judge_sheet(sheet: *const u8, length: usize) -> u8;
    fn converter_read_sheet(sheet: *const u8, length: usize) -> Contents;
    fn converter_write_sheet(figures: Calibration, out: *mut u8, room: usize) -> Written;
    fn converter_move_to_new(
        sheet: *const u8,
        length: usize,
        identity: Identity,
        out: *mut u8,
        room: usize,
        scratch: *mut u8,
        scratch_room: usize,
    ) -> Written;
    fn converter_move_to_old(
        sheet: *const u8,
        length: usize,
        out: *mut u8,
        room: usize,
        scratch: *mut u8,
        scratch_room: usize,
    ) -> MovedBack;
}

// Each call lends live Rust memory with its true length for the time of the call only.
impl Converter for Device {
    fn make(&mut self, sheet: &[u8], station: u8) -> u8 {
        let made = unsafe { converter_make(sheet.as_ptr(), sheet.len(), station) };
        *self = made.device;
        made.number
    }

    fn reading(&mut self, elec: i64, temp: i64, integrity: u8) -> u8 {
        unsafe { converter_reading(self, elec, temp, integrity) }
    }

    fn probe(&mut self, elec: i64, resistance: i64, integrity: u8) -> u8 {
        unsafe { converter_probe(self, elec, resistance, integrity) }
    }

    fn report(&mut self) -> (u8, [u32; 4]) {
        let Reported { number, report: r } = unsafe { converter_report(self) };
        (number, [r.sys, r.peak, r.trof, r.cell].map(f32::to_bits))
    }

    fn frame(&mut self, frame: &[u8], reply: &mut [u8]) -> (u8, usize) {
        let answered = unsafe { converter_frame(self, frame.as_ptr(), frame.len(), reply.as_mut_ptr(), reply.len()) };
        (answered.number, answered.length)
    }

    fn weigh([one, two, three, four]: [&mut Device; 4], samples: [model::Sample; 4]) -> (u8, model::Weights) {
        let [s1, s2, s3, s4] = samples.map(|(elec, temp, integrity)| Sample { elec, temp, integrity });
        let samples = Samples { one: s1, two: s2, three: s3, four: s4 };
        let Weighed { number, weights } = unsafe { converter_weigh(one, two, three, four, &samples) };
        let Weights { one, two, three, four, total, left, right, difference } = weights;
        (number, model::Weights { corners: [one, two, three, four], total, left, right, difference })
    }

    fn state(&self) -> model::Device {
        let Setup { figures, copy, station } = self.setup;
        let State { readings: r, flag, snapshot } = self.state;
        let v = r.values;
        let reading = Reading {
            input: r.input,
            elec: r.elec,
            temp: r.temp,
            craw: v.craw,
            cell: v.cell,
            sraw: v.sraw,
            sys: v.sys,
            stat: v.stat,
            peak: r.peak,
            trof: r.trof,
        };
        model::Device {
            station,
            figures: figures.into(),
            copy: copy.into(),
            flag,
            last: (r.any != 0).then_some(reading),
            snapshot: (snapshot.taken != 0).then_some(snapshot.sysn),
        }
    }
}

impl Laboratory for Device {
    fn judge_sheet(sheet: &[u8]) -> u8 {
        unsafe { converter_judge_sheet(sheet.as_ptr(), sheet.len()) }
    }

    fn read_sheet(sheet: &[u8]) -> (u8, model::Contents) {
        let read = unsafe { converter_read_sheet(sheet.as_ptr(), sheet.len()) };
        let Contents { number, form, identity, figures } = read;
        (number, model::Contents { form, identity: identity.into(), figures: figures.into() })
    }

    fn write_sheet(figures: &Figures, out: &mut [u8]) -> (u8, usize) {
        let written = unsafe { converter_write_sheet(figures.into(), out.as_mut_ptr(), out.len()) };
        (written.number, written.length)
    }

    fn move_to_new(sheet: &[u8], id: model::Identity, out: &mut [u8], scratch: &mut [u8]) -> (u8, usize) {
        let identity = Identity { serial: id.serial, day: id.day };
        let written = unsafe {
            converter_move_to_new(
                sheet.as_ptr(),
                sheet.len(),
                identity,
                out.as_mut_ptr(),
                out.len(),
                scratch.as_mut_ptr(),
                scratch.len(),
            )
        };
        (written.number, written.length)
    }

    fn move_to_old(sheet: &[u8], out: &mut [u8], scratch: &mut [u8]) -> (u8, usize, model::Identity) {
        let moved = unsafe {
            converter_move_to_old(
                sheet.as_ptr(),
                sheet.len(),
                out.as_mut_ptr(),
                out.len(),
                scratch.as_mut_ptr(),
                scratch.len(),
            )
        };
        (moved.number, moved.length, moved.identity.into())
    }
}

impl From<Identity> for model::Identity {
    fn from(Identity { serial, day }: Identity) -> model::Identity {
        model::Identity { serial, day }
    }
}

impl From<&Figures> for Calibration {
    fn from(f: &Figures) -> Calibration {
        Calibration {
            cell: Cell { cofs: f.cofs, cgai: f.cgai, cmin: f.cmin, cmax: f.cmax },
            temperature: Temperature {
                ctn: f.ctn,
                points: f.temperature.map(|p| TemperaturePoint { ct: p.ct, cto: p.cto, ctg: p.ctg }),
            },
            linearity: Linearity { cln: f.cln, points: f.linearity.map(|p| LinearityPoint { clx: p.clx, clk: p.clk }) },
            system: System { sofs: f.sofs, sgai: f.sgai, smin: f.smin, smax: f.smax, sz: f.sz },
            filter: Filter { fflv: f.fflv, ffst: f.ffst },
        }
    }
}

impl From<Calibration> for Figures {
    fn from(c: Calibration) -> Figures {
        Figures {
            cofs: c.cell.cofs,
            cgai: c.cell.cgai,
            cmin: c.cell.cmin,
            cmax: c.cell.cmax,
            ctn: c.temperature.ctn,
            temperature: c.temperature.points.map(|p| sheet::TemperaturePoint { ct: p.ct, cto: p.cto, ctg: p.ctg }),
            cln: c.linearity.cln,
            linearity: c.linearity.points.map(|p| sheet::LinearityPoint { clx: p.clx, clk: p.clk }),
            sofs: c.system.sofs,
            sgai: c.system.sgai,
            smin: c.system.smin,
            smax: c.system.smax,
            sz: c.system.sz,
            fflv: c.filter.fflv,
            ffst: c.filter.ffst,
        }
    }
}
