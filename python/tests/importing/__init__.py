"""The tests of `import`."""
