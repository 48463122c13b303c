#!/usr/bin/env python3
"""Prints a report of N rows: ranges of destinations for many sources and ports, with outcomes at a hundred devices."""
import sys

total = int(sys.argv[1])
ingresses = 10
rows = [[] for _ in range(ingresses)]
for k in range(total):
    place, n = k % ingresses, k // ingresses
    block, low = n // 7, n % 7
    # 2 to 254 of a subnet, as rows of prefixes
    prefix = ["2/31", "4/30", "8/29", "16/28", "32/27", "64/26", "128/25"][low]
    dst = f"10.{block // 256 % 256}.{block % 256}.{prefix}"
    row = f"dst {dst} src 172.16.{block % 50}.0/24 proto 6 dport {1 + block % 1000} sport * flags *"
    rows[place].append(f"{row}\nold drop\nnew exit R{block % 100} Ethernet1\n")
for place in range(ingresses):
    print(f"ingress R{place} Ethernet0 rows {len(rows[place])}")
    print("".join(rows[place]), end="")
print(f"affected {total}")
