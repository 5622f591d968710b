//! States as named values, for `image --json`, `image --csv` and `diff`.

use super::fields::{Fields, Value};
use swarmtempo::describe::date;
use swarmtempo::{DiskLine, DriveState, Machine, State};

/// All of a machine's image.
pub fn fields(machine: &Machine) -> Fields {
    let state = machine.state();
    let mut fields = Fields::default();
    fields.put("kind", String::from_utf8_lossy(&state.chip.kind()).into_owned());
    fields.put("image_bytes", machine.image().len() as u64);
    via(&mut fields, &state);
    clock(&mut fields, &state);
    fields.put("lines_on", Value::all(state.lines.iter().map(DiskLine::name)));
    fields.put("sel", state.sel());
    fields.put("in_lines", Value::all(state.inputs));
    for (name, levels) in ["sense_internal", "sense_external"].into_iter().zip(state.sense) {
        fields.put(name, Value::all(levels));
    }
    for (name, state) in ["internal", "external"].into_iter().zip(&state.drives) {
        drive(&mut fields, name, state);
    }
    fields.put("strobe_via_ticks", u64::from(state.strobe.ticks.0));
    fields.put("strobe_steady", state.strobe.steady);
    fields
}

fn via(fields: &mut Fields, state: &State) {
    fields.put("port_b_out", state.out_b).put("port_a_out", state.out_a);
    fields.put("port_b_directions", state.dir_b).put("port_a_directions", state.dir_a);
    fields.put("port_b_levels", state.port_b()).put("port_a_levels", state.port_a());
    fields.put("t1_counter_via_ticks", u64::from(state.t1.counter.0));
    fields.put("t1_latch_via_ticks", u64::from(state.t1.latch.0));
    fields.put("t1_armed", state.t1.armed).put("t1_load_due", state.t1.due);
    fields.put("t2_counter_via_ticks", u64::from(state.t2.counter.0));
    fields.put("t2_low_latch", state.t2.low).put("t2_armed", state.t2.armed);
    fields.put("sr", state.sr).put("acr", state.acr).put("pcr", state.pcr);
    fields.put("flags", state.flags).put("enables", state.enables).put("pulses", state.pulses);
    fields.put("level", u64::from(state.level()));
}

fn clock(fields: &mut Fields, state: &State) {
    let wires = state.wires();
    fields.put("chip_cells", state.chip.cells() as u64);
    fields.put("enable", wires.enable).put("data_clock", wires.data_clock).put("data", wires.data);
    fields.put("command", state.phase.to_string());
    fields.put("protect", state.protect).put("test", state.test);
    fields.put("seconds_stopped", state.seconds_stopped());
    fields.put("seconds", u64::from(state.seconds.0)).put("date", date(state.seconds.0));
    fields.put("cells", Value::all(state.cells.iter().copied()));
}

fn drive(fields: &mut Fields, name: &'static str, drive: &DriveState) {
    let of = |what: &str| format!("{name}_{what}");
    fields.put(of("track"), u64::from(drive.track));
    fields.put(of("towards_track_0"), drive.direction);
    fields.put(of("disk"), drive.disk).put(of("locked"), drive.locked);
    fields.put(of("double_sided"), drive.double_sided).put(of("motor"), drive.motor);
    fields.put(of("step_left_via_ticks"), u64::from(drive.step_left.0));
    fields.put(of("step_towards_track_0"), drive.step_direction);
}

/// The names and values in which two machines differ.
pub fn differences(a: &Machine, b: &Machine) -> Vec<(String, Value, Value)> {
    let (ours, theirs) = (fields(a).flat(), fields(b).flat());
    let value = |all: &[(std::borrow::Cow<'static, str>, Value)], name: &str| {
        all.iter().find(|(it, _)| it == name).map_or(Value::Nothing, |(_, value)| value.clone())
    };
    let mut names: Vec<&str> = ours.iter().map(|(name, _)| &**name).collect();
    let more = theirs.iter().map(|(name, _)| &**name).filter(|name| !names.contains(name));
    let more: Vec<&str> = more.collect();
    names.extend(more);
    let pairs =
        names.into_iter().map(|name| (name.to_string(), value(&ours, name), value(&theirs, name)));
    let mut all: Vec<_> = pairs.filter(|(_, a, b)| a != b).collect();
    if all.is_empty() && a.image() != b.image() {
        // A field of the image that has no name here.
        let bytes = a.image().iter().zip(b.image()).enumerate();
        let bytes = bytes.filter(|(_, (a, b))| a != b);
        all.extend(bytes.map(|(i, (&a, &b))| (format!("image byte {i}"), a.into(), b.into())));
    }
    all
}
