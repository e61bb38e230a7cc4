"""Decimals: what is one, how it is cut, and what fits."""
from fractions import Fraction

import pytest

from argo_judge.decimals import GREATEST, LEAST, fits, is_decimal, millionths, number_of


@pytest.mark.parametrize("text", ["0", "-0", "+1.", ".5", "1e3", "1E-07", "0.000000001", "9" * 64])
def test_decimal(text: str) -> None:
    assert is_decimal(text)


@pytest.mark.parametrize("text", ["", ".", "1e", "1e1000", "0x1", "1_0", " 1", "NaN", "1\n", "٣", "9" * 65])
def test_no_decimal(text: str) -> None:
    assert not is_decimal(text)


def test_cut_toward_zero() -> None:
    assert millionths(number_of("0.0000019")) == 1
    assert millionths(number_of("-0.0000019")) == -1
    assert millionths(Fraction(-1, 3)) == -333333


def test_fits() -> None:
    assert fits(LEAST) and fits(GREATEST)
    assert not fits(LEAST - 1) and not fits(GREATEST + 1)
