"""Brings the texts of devices into the profile that the verifier reads, and tells everything that it changes.

It stands beside the proved core and outside its theorem: what it writes is an ordinary folder of configurations.
"""
