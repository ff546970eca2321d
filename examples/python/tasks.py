"""Three functions as tasks: two fill an array each, side by side, and one adds them up when both have ended."""

import array

import realm

a, b, total = array.array("d", bytes(8000)), array.array("d", bytes(8000)), array.array("d", [0])


def fill(cells):
    for k in range(len(cells)):
        cells[k] = k


def add_up():
    total[0] = sum(x * y for x, y in zip(a, b))


with realm.Tasks(workers=4) as tasks:
    of_a, of_b, of_total = tasks.data(a), tasks.data(b), tasks.data(total)
    tasks.insert(fill, a, writes=[of_a])
    tasks.insert(fill, b, writes=[of_b])
    tasks.insert(add_up, reads=[of_a, of_b], writes=[of_total])  # waits for both
    tasks.wait()  # raises what a function raised
    print(total[0])
