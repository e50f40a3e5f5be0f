//! Rules 7 to 13.

use super::List;
use crate::layout::{steps, CONTAINERS, HEADER_BODIES, HEADER_CONTAINERS, SAMPLE_TABLES};
use crate::node::{self, Header, Node};

impl List {
    pub fn header(&mut self) {
        self.header_counts();
        self.header_bodies();
        self.header_fields();
    }

    /// Rule 7.
    fn header_counts(&mut self) {
        let t = super::track_t();
        for container in &CONTAINERS[..HEADER_CONTAINERS] {
            let path = steps(container.path);
            for &&kind in container.counted {
                let counted = [&path[..], &[(kind, 0)]].concat();
                let Some(present) = node::find(&t, &counted) else {
                    continue; // T does without
                };
                let name = String::from_utf8_lossy(&kind);
                self.boxes_refused(&format!("no {name}"), 7, &path, |boxes| {
                    node::inside(boxes, &path).retain(|node| node.kind != kind);
                });
                let second = [&path[..], &[(kind, 1)]].concat();
                self.boxes_refused(&format!("second {name}"), 7, &second, |boxes| {
                    node::inside(boxes, &path).push(present.clone());
                });
            }
        }
        self.accepted("edts and elng", |t| (t.edts, t.elng) = (true, true));
        let elst = || Node::leaf(b"elst", vec![]);
        let edts_of = |elsts: Vec<Node>| {
            let edts = Node::container(b"edts", elsts);
            move |boxes: &mut Vec<Node>| node::inside(boxes, &steps("moov/trak")).push(edts)
        };
        self.boxes_refused("no elst", 7, &steps("moov/trak/edts"), edts_of(vec![]));
        let second = [steps("moov/trak/edts"), vec![(*b"elst", 1)]].concat();
        self.boxes_refused("second elst", 7, &second, edts_of(vec![elst(), elst()]));
        for (container, kind) in [("moov/trak", *b"edts"), ("moov/trak/mdia", *b"elng")] {
            let second = [steps(container), vec![(kind, 1)]].concat();
            let name = format!("second {}", String::from_utf8_lossy(&kind));
            self.boxes_refused(&name, 7, &second, |boxes| {
                let optional = Node::container(&kind, vec![]);
                node::inside(boxes, &steps(container)).extend([optional.clone(), optional]);
            });
        }
        self.boxes_refused("vmhd and smhd", 7, &steps("moov/trak/mdia/minf/smhd"), |boxes| {
            node::inside(boxes, &steps("moov/trak/mdia/minf")).push(Node::leaf(b"smhd", vec![]));
        });
        self.boxes_refused(
            "second mvex before no tkhd",
            7,
            &[(*b"moov", 0), (*b"mvex", 1)],
            |boxes| {
                node::inside(boxes, &steps("moov/trak")).retain(|node| node.kind != *b"tkhd");
                let mvex = boxes[1].boxes()[2].clone();
                boxes[1].boxes().push(mvex);
            },
        );
    }

    /// Rule 8.
    fn header_bodies(&mut self) {
        self.accepted("versions 1", |t| {
            (t.mvhd_version, t.tkhd_version, t.mdhd_version) = (1, 1, 1);
        });
        for (target, smallest) in HEADER_BODIES {
            let path = steps(target);
            self.boxes_refused(&format!("{target} of {} bytes", smallest - 1), 8, &path, |boxes| {
                node::at(boxes, &path).body().truncate(smallest - 9);
            });
            self.boxes_accepted(&format!("{target} with the long header"), |boxes| {
                node::at(boxes, &path).header = Header::Long;
            });
        }
        for target in ["moov/mvhd", "moov/trak/tkhd", "moov/trak/mdia/mdhd", "moov/mvex/trex"] {
            let path = steps(target);
            for version in [1, 2] {
                self.boxes_refused(&format!("{target} of version {version}"), 8, &path, |boxes| {
                    node::at(boxes, &path).body()[0] = version;
                });
            }
            self.boxes_refused(&format!("{target} a byte longer"), 8, &path, |boxes| {
                node::at(boxes, &path).body().push(0);
            });
        }
    }

    /// Rules 9 to 13.
    fn header_fields(&mut self) {
        let ftyp = steps("ftyp");
        self.refused("no brand", 9, &ftyp, |t| t.brands.clear());
        self.refused("other brands", 9, &ftyp, |t| t.brands = vec![*b"cmff", *b"iso6"]);
        self.accepted("cmf2 last", |t| t.brands = vec![*b"iso6", *b"cmf2"]);
        self.boxes_refused("major brand alone", 9, &ftyp, |boxes| {
            *boxes[0].body() = b"cmfccmf2iso6".to_vec();
        });
        self.refused("timescale 0", 10, &steps("moov/trak/mdia/mdhd"), |t| t.timescale = 0);
        self.refused("track ID 0", 11, &steps("moov/trak/tkhd"), |t| t.track_id = 0);
        for id in [0, 2] {
            let trex = steps("moov/mvex/trex");
            self.boxes_refused(&format!("track ID {id} in trex"), 11, &trex, |boxes| {
                node::at(boxes, &trex).put_u32(4, id);
            });
        }
        let hdlr = steps("moov/trak/mdia/hdlr");
        self.refused("soun with vmhd", 12, &hdlr, |t| t.handler = *b"soun");
        self.refused("text with vmhd", 12, &hdlr, |t| t.handler = *b"text");
        self.accepted("soun with smhd", |t| (t.handler, t.media_header) = (*b"soun", *b"smhd"));
        self.accepted("subt with sthd", |t| (t.handler, t.media_header) = (*b"subt", *b"sthd"));
        for (target, at, right) in SAMPLE_TABLES {
            for count in [right + 1, right.wrapping_sub(1)] {
                self.boxes_refused(
                    &format!("{target} count {count}"),
                    13,
                    &steps(target),
                    |boxes| {
                        node::at(boxes, &steps(target)).put_u32(at, count);
                    },
                );
            }
        }
    }
}
