//! Which variable a search decides next: the one that took part in most conflicts of late.

/// Variables by activity, the most active on top of a heap.
#[derive(Default)]
pub struct Order {
    activity: Vec<f64>,
    step: f64,
    heap: Vec<usize>,
    /// Of each variable, its place in the heap.
    place: Vec<Option<usize>>,
}

/// How much less a conflict counts than the next.
const AGING: f64 = 0.95;

impl Order {
    /// One more variable with an activity to begin with.
    pub fn add(&mut self, activity: f64) {
        self.step = self.step.max(1.0);
        self.activity.push(activity);
        self.place.push(None);
        self.insert(self.place.len() - 1);
    }

    /// Notes that a variable took part in a conflict.
    pub fn bump(&mut self, v: usize) {
        self.activity[v] += self.step;
        if self.activity[v] > 1e100 {
            self.activity.iter_mut().for_each(|a| *a *= 1e-100);
            self.step *= 1e-100;
        }
        if let Some(place) = self.place[v] {
            self.rise(place);
        }
    }

    /// Lets what was noted so far count less.
    pub fn age(&mut self) {
        self.step /= AGING;
    }

    /// Puts a variable back that was taken.
    pub fn insert(&mut self, v: usize) {
        if self.place[v].is_none() {
            self.heap.push(v);
            self.rise(self.heap.len() - 1);
        }
    }

    /// Takes the most active variable.
    pub fn pop(&mut self) -> Option<usize> {
        let top = *self.heap.first()?;
        self.place[top] = None;
        let last = self.heap.pop()?;
        if last != top {
            self.sink(last);
        }
        Some(top)
    }

    fn above(&self, a: usize, b: usize) -> bool {
        self.activity[a] > self.activity[b]
    }

    fn put(&mut self, place: usize, v: usize) {
        self.heap[place] = v;
        self.place[v] = Some(place);
    }

    /// Moves what stands at a place up to where it belongs.
    fn rise(&mut self, mut place: usize) {
        let v = self.heap[place];
        while place > 0 && self.above(v, self.heap[(place - 1) / 2]) {
            self.put(place, self.heap[(place - 1) / 2]);
            place = (place - 1) / 2;
        }
        self.put(place, v);
    }

    /// Puts a variable in the free place at the top, and down to where it belongs.
    fn sink(&mut self, v: usize) {
        let mut place = 0;
        loop {
            let children = [2 * place + 1, 2 * place + 2];
            let present = children
                .into_iter()
                .filter(|&child| child < self.heap.len());
            let higher = |a: usize, b: usize| {
                if self.above(self.heap[b], self.heap[a]) {
                    b
                } else {
                    a
                }
            };
            match present.reduce(higher) {
                Some(child) if self.above(self.heap[child], v) => {
                    self.put(place, self.heap[child]);
                    place = child;
                }
                _ => break,
            }
        }
        self.put(place, v);
    }
}

#[cfg(test)]
mod tests {
    use super::*;

    #[test]
    fn the_most_active_comes_first() {
        let mut order = Order::default();
        for activity in [0.01, 0.04, 0.02, 0.03] {
            order.add(activity);
        }
        order.bump(2);
        order.age();
        order.bump(0);
        assert_eq!([(); 3].map(|()| order.pop()), [Some(0), Some(2), Some(1)]);
        order.insert(2);
        order.insert(2);
        assert_eq!([(); 3].map(|()| order.pop()), [Some(2), Some(3), None]);
    }
}
