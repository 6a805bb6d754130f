"""The comparison of Khalyksor's readers with moxcms's: see ../README.md."""
