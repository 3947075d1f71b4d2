"""The tests of the package gyomrelas. bindings/python/test runs them."""
