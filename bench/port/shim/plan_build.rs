// Of plan_build: the pass of repeaters with a library's numbers.
use crate::cell_library::Library;
use crate::repeater_rows::RepeatPass;

pub fn repeating(library: &Library) -> RepeatPass {
    RepeatPass {
        reach: library.reach(),
        height: library.height(),
        channel: (library.capacity() + 1) * library.pitch(),
    }
}
