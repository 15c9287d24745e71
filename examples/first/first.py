from hot import SortedMap

index = SortedMap(capacity=100_000)
index["pear"] = 3
print(index["pear"], list(index.irange("a", "z")))
