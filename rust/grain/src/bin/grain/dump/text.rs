//! An artifact for a reader: a heading a section, a line a record.
use super::view::View;
use super::{code, tree};
use crate::shown;
use grain::pos;
use grain::records::{Access, Chain, Chunk, Function, Position, Root, Site, Step, Switch, Tail};
use grain::StepFlags;
use std::io::{self, Write};

pub fn write(view: &View<'_>, out: &mut dyn Write) -> io::Result<()> {
    let artifact = &view.artifact;
    header(view, out)?;
    heading("names", artifact.names().len(), out)?;
    lines(artifact.names().map(shown::text), out)?;
    heading("constants", artifact.constants().len(), out)?;
    tree::items(artifact.constants(), 1, out)?;
    heading("tokens", artifact.tokens().len(), out)?;
    lines(artifact.tokens().map(|token| format!("{token:?}")), out)?;
    assigns(view, out)?;
    heading("chains", artifact.chains().len(), out)?;
    for (index, record) in artifact.chains().enumerate() {
        chain(view, index, &record, out)?;
    }
    heading("switches", artifact.switches().len(), out)?;
    for (index, record) in artifact.switches().enumerate() {
        switch(view, index, &record, out)?;
    }
    heading("custom syntax", artifact.customs().len(), out)?;
    for (index, record) in artifact.customs().enumerate() {
        custom(view, index, &record, out)?;
    }
    heading("functions", artifact.functions().len(), out)?;
    lines(artifact.functions().map(|record| function(view, record)), out)?;
    positioned_code(view, out)
}

fn header(view: &View<'_>, out: &mut dyn Write) -> io::Result<()> {
    let artifact = &view.artifact;
    let source = artifact.source().map_or("none".to_string(), |name| format!("{name:?}"));
    writeln!(out, "source: {source}")?;
    writeln!(out, "caps: {:08x}", artifact.caps())?;
    writeln!(out, "debug id: {:032x}", artifact.debug_id())?;
    writeln!(out, "main: {}", chunk(artifact.main()))
}

fn heading(name: &str, count: usize, out: &mut dyn Write) -> io::Result<()> {
    writeln!(out, "\n{name}: {count}")
}

fn lines(records: impl Iterator<Item = String>, out: &mut dyn Write) -> io::Result<()> {
    for (index, record) in records.enumerate() {
        writeln!(out, "  {index}: {record}")?;
    }
    Ok(())
}

fn assigns(view: &View<'_>, out: &mut dyn Write) -> io::Result<()> {
    heading("assigns", view.artifact.assigns().len(), out)?;
    let told = view.artifact.assigns().map(|assign| {
        let (name, applied) = (view.name(assign.op_assign_name), view.name(assign.op_name));
        format!("{:?} named {name}, applies {:?} named {applied}", assign.op_assign, assign.op)
    });
    lines(told, out)
}

fn chain(view: &View<'_>, index: usize, chain: &Chain<'_>, out: &mut dyn Write) -> io::Result<()> {
    let root = match chain.root {
        Root::Local { slot, name } => format!("local {} in slot {slot}", view.name(name)),
        Root::Temporary => "temporary".to_string(),
        Root::Named { name, position } => format!("named {}{}", view.name(name), at(position)),
        Root::This { position } => format!("this{}", at(position)),
    };
    let tail = match chain.tail {
        Tail::Read => "read".to_string(),
        Tail::Assign => "assigned".to_string(),
        Tail::AssignOp { op } => format!("assigned through {}", view.operator(op)),
    };
    writeln!(out, "  {index}: {root}, operands {}, {tail}", chain.operands)?;
    for record in chain.steps.clone() {
        writeln!(out, "    {}", step(view, record))?;
    }
    Ok(())
}

fn step(view: &View<'_>, step: Step) -> String {
    let told = match step {
        Step::Index { operand, position, bracket, .. } => {
            let bracket = bracket.map_or(String::new(), |place| format!(", bracket{}", at(Some(place))));
            format!("index by operand {operand}{}{bracket}", at(position))
        }
        Step::Property { name, getter, setter, position, .. } => {
            let (name, getter, setter) = (view.name(name), view.name(getter), view.name(setter));
            format!("property {name}, getter {getter}, setter {setter}{}", at(position))
        }
        Step::Method { name, argc, operand, position, .. } => {
            format!("method {}, arguments {argc} from operand {operand}{}", view.name(name), at(position))
        }
    };
    match step.flags() {
        StepFlags(0) => told,
        flags => format!("{told}, flags {:02x}", flags.0),
    }
}

fn switch(view: &View<'_>, index: usize, switch: &Switch<'_>, out: &mut dyn Write) -> io::Result<()> {
    writeln!(out, "  {index}: otherwise to {}", switch.default)?;
    for case in switch.cases.clone() {
        writeln!(out, "    {}: to {}", view.constant(case.constant), case.blocks)?;
    }
    for range in switch.ranges.clone() {
        let dots = if range.inclusive { "..=" } else { ".." };
        writeln!(out, "    {}{dots}{}: to {}", range.from, range.to, range.target)?;
    }
    Ok(())
}

fn custom(view: &View<'_>, index: usize, site: &Site<'_>, out: &mut dyn Write) -> io::Result<()> {
    writeln!(out, "  {index}: {}, state {}", view.name(site.key), view.constant(site.state))?;
    for input in site.inputs.clone() {
        let literal = input.literal.map_or(String::new(), |index| format!(", literal {}", view.constant(index)));
        writeln!(out, "    {}{literal}", chunk(input.chunk))?;
    }
    Ok(())
}

fn function(view: &View<'_>, function: Function<'_>) -> String {
    let access = match function.access {
        Access::Public => "public",
        Access::Private => "private",
    };
    let this = function.this_type.map_or(String::new(), |index| format!(" of {}", view.name(index)));
    let parameters: Vec<String> = function.parameters.map(|index| view.name(index)).collect();
    format!("{access} {}{this} ({}), {}", view.name(function.name), parameters.join(", "), chunk(function.chunk))
}

fn positioned_code(view: &View<'_>, out: &mut dyn Write) -> io::Result<()> {
    let artifact = &view.artifact;
    let positions = match artifact.positions() {
        [] => "stripped of positions".to_string(),
        table => format!("positions: {}", pos::entries(table).count()),
    };
    writeln!(out, "\ncode: {} bytes, {positions}", artifact.code().len())?;
    code::write(artifact, out)
}

fn chunk(chunk: Chunk) -> String {
    format!("code {} to {}, slots {}", chunk.entry, chunk.end, chunk.slots)
}

fn at(position: Option<Position>) -> String {
    position.map_or(String::new(), |place| format!(" at {}:{}", place.line, place.column))
}
