# FIPS 197's own figures for AES-128, as it prints them: appendices A.1 (key expansion), B (the cipher, whose key is A.1's) and C.1 (an
# example vector).

KEY_B = bytes.fromhex("2b7e151628aed2a6abf7158809cf4f3c")
PLAINTEXT_B = bytes.fromhex("3243f6a8885a308d313198a2e0370734")
CIPHERTEXT_B = bytes.fromhex("3925841d02dc09fbdc118597196a0b32")

# The words w0 to w43 of A.1, four a line: a line is a round key.
WORDS = """
2b7e1516 28aed2a6 abf71588 09cf4f3c
a0fafe17 88542cb1 23a33939 2a6c7605
f2c295f2 7a96b943 5935807a 7359f67f
3d80477d 4716fe3e 1e237e44 6d7a883b
ef44a541 a8525b7f b671253b db0bad00
d4d1c6f8 7c839d87 caf2b8bc 11f915bc
6d88a37a 110b3efd dbf98641 ca0093fd
4e54f70e 5f5fc9f3 84a64fb2 4ea6dc4f
ead27321 b58dbad2 312bf560 7f8d292f
ac7766f3 19fadc21 28d12941 575c006e
d014f9a8 c9ee2589 e13f0cc8 b6630ca6
"""
ROUND_KEYS_B = [bytes.fromhex(line) for line in WORDS.split("\n")[1:-1]]

# The state at the start of rounds 1 to 10 of appendix B.
STARTS = """
193de3bea0f4e22b9ac68d2ae9f84808
a49c7ff2689f352b6b5bea43026a5049
aa8f5f0361dde3ef82d24ad26832469a
486c4eee671d9d0d4de3b138d65f58e7
e0927fe8c86363c0d9b1355085b8be01
f1006f55c1924cef7cc88b325db5d50c
260e2e173d41b77de86472a9fdd28b25
5a4142b11949dc1fa3e019657a8c040c
ea835cf00445332d655d98ad8596b0c5
eb40f21e592e38848ba113e71bc342d2
"""
STARTS_B = [bytes.fromhex(line) for line in STARTS.split()]

KEY_C = bytes.fromhex("000102030405060708090a0b0c0d0e0f")
PLAINTEXT_C = bytes.fromhex("00112233445566778899aabbccddeeff")
CIPHERTEXT_C = bytes.fromhex("69c4e0d86a7b0430d8cdb78070b4c55a")

# Rounds 1 to 10 of C.1: start, s_box, s_row, m_col and k_sch. The last round mixes no columns, and has no m_col.
ROUNDS = """
00102030405060708090a0b0c0d0e0f0 63cab7040953d051cd60e0e7ba70e18c 6353e08c0960e104cd70b751bacad0e7
5f72641557f5bc92f7be3b291db9f91a d6aa74fdd2af72fadaa678f1d6ab76fe
89d810e8855ace682d1843d8cb128fe4 a761ca9b97be8b45d8ad1a611fc97369 a7be1a6997ad739bd8c9ca451f618b61
ff87968431d86a51645151fa773ad009 b692cf0b643dbdf1be9bc5006830b3fe
4915598f55e5d7a0daca94fa1f0a63f7 3b59cb73fcd90ee05774222dc067fb68 3bd92268fc74fb735767cbe0c0590e2d
4c9c1e66f771f0762c3f868e534df256 b6ff744ed2c2c9bf6c590cbf0469bf41
fa636a2825b339c940668a3157244d17 2dfb02343f6d12dd09337ec75b36e3f0 2d6d7ef03f33e334093602dd5bfb12c7
6385b79ffc538df997be478e7547d691 47f7f7bc95353e03f96c32bcfd058dfd
247240236966b3fa6ed2753288425b6c 36400926f9336d2d9fb59d23c42c3950 36339d50f9b539269f2c092dc4406d23
f4bcd45432e554d075f1d6c51dd03b3c 3caaa3e8a99f9deb50f3af57adf622aa
c81677bc9b7ac93b25027992b0261996 e847f56514dadde23f77b64fe7f7d490 e8dab6901477d4653ff7f5e2e747dd4f
9816ee7400f87f556b2c049c8e5ad036 5e390f7df7a69296a7553dc10aa31f6b
c62fe109f75eedc3cc79395d84f9cf5d b415f8016858552e4bb6124c5f998a4c b458124c68b68a014b99f82e5f15554c
c57e1c159a9bd286f05f4be098c63439 14f9701ae35fe28c440adf4d4ea9c026
d1876c0f79c4300ab45594add66ff41f 3e175076b61c04678dfc2295f6a8bfc0 3e1c22c0b6fcbf768da85067f6170495
baa03de7a1f9b56ed5512cba5f414d23 47438735a41c65b9e016baf4aebf7ad2
fde3bad205e5d0d73547964ef1fe37f1 5411f4b56bd9700e96a0902fa1bb9aa1 54d990a16ba09ab596bbf40ea111702f
e9f74eec023020f61bf2ccf2353c21c7 549932d1f08557681093ed9cbe2c974e
bd6e7c3df2b5779e0b61216e8b10b689 7a9f102789d5f50b2beffd9f3dca4ea7 7ad5fda789ef4e272bca100b3d9ff59f
13111d7fe3944a17f307a78b4d2b30c5
"""


# Each round of C.1 as a tuple of five, None where there is no m_col.
def rounds_c():
    blocks = [bytes.fromhex(block) for block in ROUNDS.split()]
    blocks.insert(-1, None)
    return [tuple(blocks[at : at + 5]) for at in range(0, 50, 5)]


ROUNDS_C = rounds_c()
