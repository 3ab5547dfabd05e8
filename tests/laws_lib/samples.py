"""Seeded samples of tangents, poses and points."""
import random

from . import engine

# How far phi, rho and sigma reach. Of the wide ones most lie in the closed arms of the coefficients.
SHAPES = {"near": (0.01, 0.01, 0.01), "usual": (1.0, 1.0, 1.0), "wide": (1.75, 3.0, 2.0)}


class Draw:
    def __init__(self, seed, shape):
        self.random = random.Random(f"{seed} {shape}")
        self.shape = SHAPES[shape]

    def number(self, reach):
        return self.random.uniform(-reach, reach)

    def tangent(self):
        phi, rho, sigma = self.shape
        return [self.number(phi) for _ in range(3)] + [self.number(rho) for _ in range(3)] + [self.number(sigma)]

    def pose(self):
        return engine.exp(self.tangent())

    def point(self):
        return [self.number(2.0) for _ in range(3)]
