"""What `auction ready` says by itself: of nginx's words, and of tokens."""
import secrets

import pytest

from auction.ready.files import is_weak, refused_by_nginx

pytestmark = pytest.mark.early
NO_IPV6 = "nginx: [emerg] socket() [::]:8443 failed (97: Address family not supported by protocol)"


def test_without_ipv6_it_says_which_line_to_remove() -> None:
    assert refused_by_nginx(f"{NO_IPV6}\n") == (
        f"{NO_IPV6}; the machine has no IPv6: remove the line `listen [::]..` from nginx.conf"
    )


@pytest.mark.parametrize(
    ("words", "said"),
    [("", "nginx refuses it"), ("nginx: [emerg] x\n", "nginx: [emerg] x")],
    ids=["silence", "another-fault"],
)
def test_another_fault_is_shown_as_it_is(words: str, said: str) -> None:
    assert refused_by_nginx(words) == said


@pytest.mark.parametrize("token", ["X" * 16, "abcdef" * 5, "1234561234561234", "aAbBcCdDeEfFaAbB"])
def test_a_token_of_few_letters_is_weak(token: str) -> None:
    assert is_weak(token)


def test_drawn_tokens_are_not_weak() -> None:
    assert not [token for token in (secrets.token_hex(16) for _ in range(10_000)) if is_weak(token)]
