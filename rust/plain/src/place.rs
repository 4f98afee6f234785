//! Where bytes stand: layouts, masks, stored counts, the element total, the image.
use crate::model::*;
use crate::token::Span;
use crate::{refuse, Refusal};

/// One stored part of an object, as the tables keep it.
#[derive(Clone, Copy, Debug)]
pub struct Group {
    pub data_type: DataType,
    pub msb_first: bool,
    pub place: u64,
    pub points: [u64; 2],
    pub walk: u64,
    pub method: u64,
    pub mask: u64,
    pub forbidden: bool,
    pub limits: Limits,
    pub count: Option<(DataType, u64)>,
}

/// The three parts of one object: x points, y points, values.
pub type Groups = [Option<Group>; 3];

/// What of a layout stands at a position.
#[derive(Clone, Copy)]
enum What {
    Count(usize),
    Axis(usize),
    Values,
}

/// Reads the whole number that stands at a place of the image.
pub fn read_stored(image: &[u8], place: usize, data_type: DataType, msb_first: bool) -> i128 {
    let bytes = data_type.bytes() as usize;
    let mut value = 0i128;
    for step in 0..bytes {
        let at = if msb_first { step } else { bytes - 1 - step };
        value = value * 256 + image[place + at] as i128;
    }
    if value > data_type.range().1 {
        value - (1i128 << (8 * bytes))
    } else {
        value
    }
}

/// The judge of the objects: what it looks at and what it has found so far.
struct Judge<'a> {
    model: &'a Model<'a>,
    image: &'a [u8],
    base: u64,
    total: u64,
    groups: Vec<Option<Groups>>,
}

/// Judges every object in text order and gives their parts.
pub fn judge_objects(model: &Model, image: &[u8], base: u32) -> Result<Vec<Groups>, Refusal> {
    let groups = vec![None; model.objects.len()];
    let mut judge = Judge { model, image, base: base as u64, total: 0, groups };
    for number in 0..model.objects.len() {
        judge.judge(number)?;
    }
    Ok(judge.groups.into_iter().flatten().collect())
}

impl Judge<'_> {
    /// Judges one object, after the AXIS_PTS that it names, unless it is judged already.
    fn judge(&mut self, number: usize) -> Result<(), Refusal> {
        if self.groups[number].is_some() {
            return Ok(());
        }
        let object = &self.model.objects[number];
        for axis in &object.axes {
            if let Some(named) = axis.shared {
                let Some(axis_pts) = self.model.find(Target::AxisPts, named) else {
                    return refuse(7, named.from);
                };
                self.judge(axis_pts)?;
            }
        }
        match self.place_object(object) {
            Ok(groups) => {
                self.groups[number] = Some(groups);
                Ok(())
            }
            Err(reason) => refuse(reason, object.name.from),
        }
    }

    /// Places an object's parts, or the number of its refusal.
    fn place_object(&mut self, object: &Object) -> Result<Groups, u8> {
        let groups = match object.data_type {
            Some(data_type) => self.place_measurement(object, data_type)?,
            None => self.place_layout(object)?,
        };
        for group in groups.iter().flatten() {
            self.total += group.points[0] * group.points[1];
        }
        if self.total > MOST_ELEMENTS {
            return Err(8);
        }
        let mut groups = groups;
        for group in groups.iter_mut().flatten() {
            let bytes = group.data_type.bytes() * group.points[0] * group.points[1];
            group.place = self.inside(group.place, bytes)?;
        }
        Ok(groups)
    }

    /// The place in the image of bytes at an address, or 12.
    fn inside(&self, address: u64, bytes: u64) -> Result<u64, u8> {
        if address < self.base || address + bytes > self.base + self.image.len() as u64 {
            return Err(12);
        }
        Ok(address - self.base)
    }

    /// The byte order of an object: its own, else MOD_COMMON's, else MSB_LAST.
    fn msb_first(&self, object: &Object) -> bool {
        object.msb_first.or(self.model.msb_first).unwrap_or(false)
    }

    /// The cell of a conversion: the method's number and one more, 0 for none.
    fn method_cell(&self, conversion: Option<Span>) -> u64 {
        conversion.and_then(|name| self.model.find(Target::Method, name)).map_or(0, |it| it as u64 + 1)
    }

    /// The alignment of a data type under a layout.
    fn alignment(&self, layout: &Layout, data_type: DataType) -> u64 {
        let word = data_type.align_word();
        layout.align[word].or(self.model.align[word]).unwrap_or(data_type.bytes())
    }

    /// The mask cell of an object's values, or 11.
    fn mask_cell(&self, object: &Object, data_type: DataType) -> Result<u64, u8> {
        match object.mask {
            None => Ok(0),
            Some(mask) if data_type.signed() || mask == 0 || mask as i128 > data_type.range().1 => Err(11),
            Some(mask) => Ok(mask),
        }
    }

    /// The group of an object's values; its place is an address still.
    fn values_group(&self, object: &Object, data_type: DataType) -> Result<Group, u8> {
        Ok(Group {
            data_type,
            msb_first: self.msb_first(object),
            place: object.address,
            points: [object.most, 1],
            walk: 0,
            method: self.method_cell(object.conversion),
            mask: self.mask_cell(object, data_type)?,
            forbidden: object.read_only,
            limits: object.limits,
            count: None,
        })
    }

    /// Places a MEASUREMENT.
    fn place_measurement(&self, object: &Object, data_type: DataType) -> Result<Groups, u8> {
        Ok([None, None, Some(self.values_group(object, data_type)?)])
    }

    /// Places an object with a layout: 11, then 13 for shared axes, then stored counts.
    fn place_layout(&self, object: &Object) -> Result<Groups, u8> {
        let Some(number) = object.layout.and_then(|name| self.model.find(Target::Layout, name)) else {
            return Err(7);
        };
        let layout = &self.model.layouts[number];
        judge_layout(object, layout)?;
        let mut groups: Groups = [None; 3];
        if let Some(part) = layout.values {
            groups[2] = Some(self.values_group(object, part.data_type)?);
        }
        let mut points = self.known_points(object)?;
        let msb_first = self.msb_first(object);
        let mut counts: [Option<(DataType, u64)>; 2] = [None; 2];
        let mut at = object.address;
        for (order, (part, what)) in parts_in_order(layout).into_iter().enumerate() {
            if order > 0 {
                at = at.next_multiple_of(self.alignment(layout, part.data_type));
            }
            let start = at;
            match what {
                What::Count(axis) => {
                    at += part.data_type.bytes();
                    let place = self.inside(start, part.data_type.bytes())?;
                    let count = read_stored(self.image, place as usize, part.data_type, msb_first);
                    if count < 1 || count > points[axis] as i128 {
                        return Err(13);
                    }
                    points[axis] = count as u64;
                    counts[axis] = Some((part.data_type, place));
                }
                What::Axis(axis) => {
                    at += part.data_type.bytes() * points[axis];
                    groups[axis] = Some(self.axis_group(object, axis, part, start, points[axis], counts[axis]));
                }
                What::Values => {
                    at += part.data_type.bytes() * points[0] * points[1];
                    if let Some(group) = &mut groups[2] {
                        group.place = start;
                        group.points = points;
                        group.walk = if part.turned && object.kind == ObjectKind::Map { 2 } else { 0 };
                    }
                }
            }
        }
        Ok(groups)
    }

    /// The points before stored counts are read: shared axes' counts (13 above the maximum), else the maximum.
    fn known_points(&self, object: &Object) -> Result<[u64; 2], u8> {
        let mut points = [object.most, 1];
        for (number, axis) in object.axes.iter().enumerate() {
            points[number] = axis.most;
            if let Some(named) = axis.shared {
                let count = self
                    .model
                    .find(Target::AxisPts, named)
                    .and_then(|it| self.groups[it])
                    .and_then(|groups| groups[0])
                    .map_or(0, |group| group.points[0]);
                if count > axis.most {
                    return Err(13);
                }
                points[number] = count;
            }
        }
        Ok(points)
    }

    /// The group of a stored axis, with its AXIS_DESCR's fields or an AXIS_PTS's own.
    fn axis_group(
        &self,
        object: &Object,
        axis: usize,
        part: Part,
        place: u64,
        points: u64,
        count: Option<(DataType, u64)>,
    ) -> Group {
        let (conversion, limits, read_only) = match object.axes.get(axis) {
            Some(own) => (own.conversion, own.limits, own.read_only),
            None => (object.conversion, object.limits, object.read_only),
        };
        Group {
            data_type: part.data_type,
            msb_first: self.msb_first(object),
            place,
            points: [points, 1],
            walk: part.turned as u64,
            method: self.method_cell(conversion),
            mask: 0,
            forbidden: read_only,
            limits,
            count,
        }
    }
}

/// The parts of a layout in order of Position.
fn parts_in_order(layout: &Layout) -> Vec<(Part, What)> {
    let mut parts = Vec::new();
    for axis in 0..2 {
        parts.extend(layout.count[axis].map(|part| (part, What::Count(axis))));
        parts.extend(layout.axis[axis].map(|part| (part, What::Axis(axis))));
    }
    parts.extend(layout.values.map(|part| (part, What::Values)));
    parts.sort_by_key(|(part, _)| part.position);
    parts
}

/// Judges a layout against its object: the parts it needs and no others, counts first, or 11.
fn judge_layout(object: &Object, layout: &Layout) -> Result<(), u8> {
    let is_axis = object.kind == ObjectKind::AxisPts;
    if layout.values.is_some() == is_axis {
        return Err(11);
    }
    for axis in 0..2 {
        let own = object.axes.get(axis).is_some_and(|it| it.shared.is_none());
        let stored = own || (is_axis && axis == 0);
        if layout.axis[axis].is_some() != stored {
            return Err(11);
        }
        if let Some(count) = layout.count[axis] {
            let before_axis = layout.axis[axis].is_some_and(|part| count.position < part.position);
            let before_values = layout.values.is_none_or(|part| count.position < part.position);
            if !before_axis || !before_values {
                return Err(11);
            }
        }
    }
    let parts = parts_in_order(layout);
    if parts.windows(2).any(|pair| pair[0].0.position == pair[1].0.position) {
        return Err(11);
    }
    Ok(())
}
