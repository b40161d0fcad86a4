"""Tests of tools/ssim."""
