module empty {}
