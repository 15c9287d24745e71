"""Readings of sensors by time. A key is a sensor's name and a time, so that the keys of a
sensor are in the order of time."""

from hot import Codec, SortedMap

Key = tuple[str, int]


def main() -> None:
    readings: SortedMap[Key] = SortedMap(keys=Codec.of(str, int))
    for sensor in "abc":
        readings.update(((sensor, time), time * 7 % 100) for time in range(1000))
    # From a time on and before another.
    span = ("b", 254), ("b", 258), (True, False)
    for (sensor, time), value in readings.irange_items(*span):
        print(f"{sensor} {time}: {value}")
    # The last three of a sensor, the latest first.
    latest = readings.prefix_items(("a",), reverse=True)
    for ((sensor, time), value), _ in zip(latest, range(3)):
        print(f"{sensor} {time}: {value}")
    # All of a sensor.
    values = [value for _, value in readings.prefix_items(("c",))]
    print(f"c: {len(values)} readings, {sum(values)} in all")


if __name__ == "__main__":
    main()
