//! Small tables of few times, so that rows meet often: both ways of joining, and the one without a limit, have to agree.

mod joining;

use joining::join;
use plain::Layers;

/// Numbers that depend on nothing but where they began.
struct Random(u64);

impl Random {
    fn below(&mut self, bound: u64) -> u64 {
        self.0 = self
            .0
            .wrapping_mul(6_364_136_223_846_793_005)
            .wrapping_add(1_442_695_040_888_963_407);
        (self.0 >> 33) % bound
    }
}

/// Up to five layers, each of which names some of those below it.
fn layers(random: &mut Random) -> Layers {
    let mut layers = Layers::default();
    let count = 1 + random.below(5);
    for index in 0..count {
        layers.present |= 1 << index;
        layers.embedded[index as usize] = random.below(1 << index) & random.below(1 << index);
    }
    layers
}

/// Rows whose times rise in each layer, mostly, from a start that may be near the wrap, and in some tables far apart.
fn table(random: &mut Random, layers: &Layers) -> Vec<(u8, u64, u64)> {
    let count = u64::from(layers.present.count_ones());
    let start = [0, (1 << 33) - 3, 1 << 32][random.below(3) as usize];
    let mut next = [0; 8];
    let far = [0, 0, 0, 1 << 31, 1 << 32][random.below(5) as usize];
    (0..random.below(11))
        .map(|_| {
            let layer = random.below(count) as usize;
            let decoding = next[layer] + random.below(2);
            next[layer] = decoding + u64::from(random.below(12) > 0);
            let time =
                |layer: usize, ticks: u64| (start + far * (layer as u64 % 3) + ticks) % (1 << 33);
            let lower = random.below(layer as u64 + 1) as usize;
            (
                layer as u8,
                time(layer, decoding),
                time(lower, random.below(5)),
            )
        })
        .collect()
}

#[test]
fn all_ways_agree() {
    let mut seen = [0; 19];
    for seed in 0..20_000 {
        let random = &mut Random(seed * 7919);
        let layers = layers(random);
        let target = random.below(u64::from(layers.present.count_ones()));
        let table = table(random, &layers);
        let answer = join(&layers, target, &table);
        seen[answer.map_or_else(|refusal| usize::from(refusal.number), |_| 0)] += 1;
    }
    for number in [0, 14, 15, 16, 18] {
        assert!(
            seen[number] > 10,
            "{number} was given {} times",
            seen[number]
        );
    }
}
