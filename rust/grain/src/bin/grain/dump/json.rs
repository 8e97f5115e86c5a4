//! An artifact as one JSON object.
use super::json_constants;
use super::view::View;
use crate::json::Json;
use crate::shown;
use grain::pos;
use grain::records::{
    Access, Assign, Chain, Chunk, Function, Input, NameIndex, OperatorIndex, Position, Range, Root, Site, Step, Switch,
    Tail,
};
use std::io::{self, Write};

/// A name that is referred to is told where it is no longer, lest a long one make a small file a large dump.
const SHORT: usize = 200;

pub fn write(view: &View<'_>, out: &mut dyn Write) -> io::Result<()> {
    let mut json = Json::new(out);
    json.object(|json| sections(view, json))?;
    writeln!(out)
}

fn sections(view: &View<'_>, json: &mut Json<'_>) -> io::Result<()> {
    let artifact = &view.artifact;
    optional(artifact.source(), json.key("source")?, |name, json| json.string(name))?;
    json.key("caps")?.plain(artifact.caps())?;
    json.key("debug_id")?.string(&format!("{:032x}", artifact.debug_id()))?;
    list(artifact.names(), json.key("names")?, |name, json| json.text(name))?;
    json_constants::items(artifact.constants(), json.key("constants")?)?;
    list(artifact.tokens(), json.key("tokens")?, |token, json| json.string(token))?;
    list(artifact.assigns(), json.key("assigns")?, |record, json| assign(view, record, json))?;
    list(artifact.chains(), json.key("chains")?, |record, json| chain(view, record, json))?;
    list(artifact.switches(), json.key("switches")?, switch)?;
    list(artifact.customs(), json.key("customs")?, |record, json| custom(view, record, json))?;
    chunk(artifact.main(), json.key("main")?)?;
    list(artifact.functions(), json.key("functions")?, |record, json| function(view, record, json))?;
    json.key("code")?.string(&shown::hex(artifact.code()))?;
    list(pos::entries(artifact.positions()), json.key("positions")?, entry)
}

fn list<T>(
    records: impl Iterator<Item = T>,
    json: &mut Json<'_>,
    each: impl Fn(T, &mut Json<'_>) -> io::Result<()>,
) -> io::Result<()> {
    json.array(|json| {
        for record in records {
            each(record, json)?;
        }
        Ok(())
    })
}

fn optional<T>(
    value: Option<T>,
    json: &mut Json<'_>,
    some: impl FnOnce(T, &mut Json<'_>) -> io::Result<()>,
) -> io::Result<()> {
    match value {
        Some(value) => some(value, json),
        None => json.null(),
    }
}

fn name(view: &View<'_>, index: NameIndex, json: &mut Json<'_>) -> io::Result<()> {
    reference(index.0, view.artifact.name(index), json)
}

fn operator(view: &View<'_>, index: OperatorIndex, json: &mut Json<'_>) -> io::Result<()> {
    reference(index.0, view.token(index).map(str::as_bytes), json)
}

fn reference(index: u32, name: Option<&[u8]>, json: &mut Json<'_>) -> io::Result<()> {
    json.object(|json| {
        json.key("index")?.plain(index)?;
        match name {
            Some(name) if name.len() <= SHORT => json.key("name")?.text(name),
            _ => Ok(()),
        }
    })
}

fn assign(view: &View<'_>, assign: Assign<'_>, json: &mut Json<'_>) -> io::Result<()> {
    json.object(|json| {
        json.key("op_assign")?.string(assign.op_assign)?;
        name(view, assign.op_assign_name, json.key("op_assign_name")?)?;
        json.key("op")?.string(assign.op)?;
        name(view, assign.op_name, json.key("op_name")?)
    })
}

fn chain(view: &View<'_>, chain: Chain<'_>, json: &mut Json<'_>) -> io::Result<()> {
    json.object(|json| {
        root(view, chain.root, json.key("root")?)?;
        json.key("operands")?.plain(chain.operands)?;
        list(chain.steps, json.key("steps")?, |record, json| step(view, record, json))?;
        tail(view, chain.tail, json.key("tail")?)
    })
}

fn root(view: &View<'_>, root: Root, json: &mut Json<'_>) -> io::Result<()> {
    json.object(|json| match root {
        Root::Local { slot, name: index } => {
            json.key("kind")?.string("local")?;
            json.key("slot")?.plain(slot)?;
            name(view, index, json.key("name")?)
        }
        Root::Temporary => json.key("kind")?.string("temporary"),
        Root::Named { name: index, position: place } => {
            json.key("kind")?.string("named")?;
            name(view, index, json.key("name")?)?;
            position(place, json.key("position")?)
        }
        Root::This { position: place } => {
            json.key("kind")?.string("this")?;
            position(place, json.key("position")?)
        }
    })
}

fn step(view: &View<'_>, step: Step, json: &mut Json<'_>) -> io::Result<()> {
    json.object(|json| {
        json.key("flags")?.plain(step.flags().0)?;
        match step {
            Step::Index { operand, position: place, bracket, .. } => {
                json.key("kind")?.string("index")?;
                json.key("operand")?.plain(operand)?;
                position(place, json.key("position")?)?;
                position(bracket, json.key("bracket")?)
            }
            Step::Property { name: index, getter, setter, position: place, .. } => {
                json.key("kind")?.string("property")?;
                name(view, index, json.key("name")?)?;
                name(view, getter, json.key("getter")?)?;
                name(view, setter, json.key("setter")?)?;
                position(place, json.key("position")?)
            }
            Step::Method { name: index, argc, operand, position: place, .. } => {
                json.key("kind")?.string("method")?;
                name(view, index, json.key("name")?)?;
                json.key("argc")?.plain(argc)?;
                json.key("operand")?.plain(operand)?;
                position(place, json.key("position")?)
            }
        }
    })
}

fn tail(view: &View<'_>, tail: Tail, json: &mut Json<'_>) -> io::Result<()> {
    json.object(|json| match tail {
        Tail::Read => json.key("kind")?.string("read"),
        Tail::Assign => json.key("kind")?.string("assign"),
        Tail::AssignOp { op } => {
            json.key("kind")?.string("assign_op")?;
            operator(view, op, json.key("op")?)
        }
    })
}

fn switch(switch: Switch<'_>, json: &mut Json<'_>) -> io::Result<()> {
    json.object(|json| {
        list(switch.cases, json.key("cases")?, |case, json| {
            json.object(|json| {
                json.key("constant")?.plain(case.constant.0)?;
                json.key("blocks")?.plain(case.blocks)
            })
        })?;
        list(switch.ranges, json.key("ranges")?, range)?;
        json.key("default")?.plain(switch.default)
    })
}

fn range(range: Range, json: &mut Json<'_>) -> io::Result<()> {
    json.object(|json| {
        json.key("from")?.plain(range.from)?;
        json.key("to")?.plain(range.to)?;
        json.key("inclusive")?.plain(range.inclusive)?;
        json.key("target")?.plain(range.target)
    })
}

fn custom(view: &View<'_>, site: Site<'_>, json: &mut Json<'_>) -> io::Result<()> {
    json.object(|json| {
        name(view, site.key, json.key("key")?)?;
        json.key("state")?.plain(site.state.0)?;
        list(site.inputs, json.key("inputs")?, input)
    })
}

fn input(input: Input, json: &mut Json<'_>) -> io::Result<()> {
    json.object(|json| {
        chunk(input.chunk, json.key("chunk")?)?;
        optional(input.literal, json.key("literal")?, |index, json| json.plain(index.0))
    })
}

fn function(view: &View<'_>, function: Function<'_>, json: &mut Json<'_>) -> io::Result<()> {
    let access = match function.access {
        Access::Public => "public",
        Access::Private => "private",
    };
    json.object(|json| {
        name(view, function.name, json.key("name")?)?;
        json.key("access")?.string(access)?;
        optional(function.this_type, json.key("this_type")?, |index, json| name(view, index, json))?;
        list(function.parameters, json.key("parameters")?, |index, json| name(view, index, json))?;
        chunk(function.chunk, json.key("chunk")?)
    })
}

fn entry(entry: pos::Entry, json: &mut Json<'_>) -> io::Result<()> {
    json.object(|json| {
        json.key("address")?.plain(entry.address)?;
        json.key("line")?.plain(entry.site.line)?;
        json.key("column")?.plain(entry.site.column)
    })
}

fn chunk(chunk: Chunk, json: &mut Json<'_>) -> io::Result<()> {
    json.object(|json| {
        json.key("entry")?.plain(chunk.entry)?;
        json.key("end")?.plain(chunk.end)?;
        json.key("slots")?.plain(chunk.slots)
    })
}

fn position(place: Option<Position>, json: &mut Json<'_>) -> io::Result<()> {
    optional(place, json, |place, json| {
        json.object(|json| {
            json.key("line")?.plain(place.line)?;
            json.key("column")?.plain(place.column)
        })
    })
}
