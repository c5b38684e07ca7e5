//! What the compared chunks showed: a run that misses a biome, a cave or a feature proves less
//! than it seems to, so it fails.
use crate::ground::Site;
use crate::ground::{biome_at, height_at};
use crate::report::Report;
use original::block::{AIR, GRAVEL, LEAVES, LOG, SAND, SNOW, STONE, WATER};
use original::noise;
use original::terrain::Biome;

#[derive(Default)]
pub struct Seen {
    pub sizes: u64,
    biomes: [u64; 4],
    water: u64,
    water_above_the_world: u64,
    beaches: u64,
    snow_by_height: u64,
    snow_by_hash: u64,
    bare_by_hash: u64,
    gravel_tops: u64,
    tunnels: u64,
    caverns: u64,
    ravines: u64,
    boulders: u64,
    normal_trees: u64,
    giant_trees: u64,
    wide_canopies: u64,
}

/// One column of a chunk, with the original's height and biome.
struct Column<'a> {
    site: &'a Site,
    cells: &'a [u16],
    x: usize,
    z: usize,
    wx: i32,
    wz: i32,
    height: i32,
    biome: Biome,
}

impl Column<'_> {
    fn at(&self, x: usize, y: usize, z: usize) -> u16 {
        let n = self.site.chunk_size;
        self.cells[x + y * n + z * n * n]
    }
}

/// Which of the three kinds of caves carve a cell: tunnel, cavern, ravine (terrain.rs).
fn caves(wx: i32, wy: i32, wz: i32, height: i32) -> [bool; 3] {
    let (x, y, z, h) = (wx as f32, wy as f32, wz as f32, height as f32);
    let a = noise::fbm3d(x * 0.04 + 100.0, y * 0.06 + 100.0, z * 0.04 + 100.0, 3) - 0.5;
    let b = noise::fbm3d(x * 0.04 - 200.0, y * 0.06 - 200.0, z * 0.04 + 300.0, 3) - 0.5;
    let cavern = noise::fbm3d(x * 0.015, y * 0.025, z * 0.015, 2);
    let depth = 1.0 - (y / h).clamp(0.0, 1.0);
    let ravine = noise::fbm2d(x * 0.01, z * 0.01, 3);
    let detail = noise::noise2d(x * 0.05, z * 0.05);
    let near = (ravine - 0.5).abs() < 0.015 + detail * 0.008;
    [
        a * a + b * b < 0.006,
        cavern > 0.7 - depth * 0.15,
        near && y > h - 20.0 && y < h - 1.0,
    ]
}

impl Seen {
    /// Notes what a chunk of the original shows.
    pub fn note(&mut self, site: &Site, cells: &[u16]) {
        let n = site.chunk_size;
        for z in 0..n {
            for x in 0..n {
                let wx = site.cx * n as i32 + x as i32;
                let wz = site.cz * n as i32 + z as i32;
                let height = height_at(site, wx, wz);
                let biome = biome_at(site, wx, wz);
                self.column(&Column {
                    site,
                    cells,
                    x,
                    z,
                    wx,
                    wz,
                    height,
                    biome,
                });
            }
        }
    }

    fn column(&mut self, c: &Column) {
        let n = c.site.chunk_size;
        for y in 0..n {
            let wy = c.site.cy * n as i32 + y as i32;
            let id = c.at(c.x, y, c.z);
            if wy >= c.height {
                self.above(c, y, wy, id);
            } else if wy == c.height - 1 {
                self.top(c, id);
            } else if id == AIR {
                self.cave(c, wy);
            }
        }
    }

    /// A cell at or above the height: water, a boulder, or a tree's trunk where it begins.
    fn above(&mut self, c: &Column, y: usize, wy: i32, id: u16) {
        match id {
            WATER => {
                self.water += 1;
                if wy >= c.site.world_height_blocks {
                    self.water_above_the_world += 1;
                }
            }
            STONE => self.boulders += 1,
            LOG if wy == c.height => self.tree(c, y),
            _ => {}
        }
    }

    /// A trunk of 8 or more is a giant's; its canopy reaches 3 or 4 cells out.
    fn tree(&mut self, c: &Column, y: usize) {
        let n = c.site.chunk_size;
        let trunk = (y..n).take_while(|&h| c.at(c.x, h, c.z) == LOG).count();
        if trunk >= 8 {
            self.giant_trees += 1;
            let wide = (y..n).any(|h| c.x >= 3 && c.at(c.x - 3, h, c.z) == LEAVES);
            self.wide_canopies += wide as u64;
        } else if y + trunk < n {
            self.normal_trees += 1;
        }
    }

    fn top(&mut self, c: &Column, id: u16) {
        self.biomes[c.biome as usize] += 1;
        match (c.biome, id) {
            (Biome::Mountain, SNOW) if c.height > 70 => self.snow_by_height += 1,
            (Biome::Mountain, SNOW) => self.snow_by_hash += 1,
            (Biome::Mountain, STONE) if c.height > 55 => self.bare_by_hash += 1,
            (Biome::Mountain, GRAVEL) => self.gravel_tops += 1,
            (Biome::Forest | Biome::Plains, SAND) => self.beaches += 1,
            _ => {}
        }
    }

    /// A carved cell, counted where one kind alone carves it.
    fn cave(&mut self, c: &Column, wy: i32) {
        match caves(c.wx, wy, c.wz, c.height) {
            [true, false, false] => self.tunnels += 1,
            [false, true, false] => self.caverns += 1,
            [false, false, true] => self.ravines += 1,
            _ => {}
        }
    }

    /// Prints the numbers, and fails for what was never seen.
    pub fn close(&self, report: &mut Report) {
        let all = [
            ("sizes", self.sizes),
            ("desert", self.biomes[0]),
            ("mountain", self.biomes[1]),
            ("forest", self.biomes[2]),
            ("plains", self.biomes[3]),
            ("water", self.water),
            ("water above the world", self.water_above_the_world),
            ("beaches", self.beaches),
            ("snow by height", self.snow_by_height),
            ("snow by hash", self.snow_by_hash),
            ("bare tops by hash", self.bare_by_hash),
            ("gravel tops", self.gravel_tops),
            ("tunnels", self.tunnels),
            ("caverns", self.caverns),
            ("ravines", self.ravines),
            ("boulder blocks", self.boulders),
            ("normal trees", self.normal_trees),
            ("giant trees", self.giant_trees),
            ("wide canopies", self.wide_canopies),
        ];
        let text: Vec<String> = all.iter().map(|(name, n)| format!("{name} {n}")).collect();
        println!("ground: seen {}", text.join(", "));
        for (name, n) in all {
            if n == 0 {
                report.fail(format!("the compared chunks show no {name}"));
            }
        }
    }
}
