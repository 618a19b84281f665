"""What goes over the line: each setting of each model, and a session with a third of its packets spoiled, on lines of both
editions."""
from concurrent.futures import ThreadPoolExecutor
from functools import partial

from line import Host, Missed, bytes_of, same
from paper import ACK, NACK, NAV, NEW, OLD, SETTINGS, Panel, all_models, control, packet, random_packet, spoiled


def every_setting_set_and_got(site, random, sicp=NEW):
    panels = all_models()
    host = Host(site, site.new("w", panels), "--sicp", sicp)
    for panel in panels:
        for set_code, get_code in SETTINGS:
            values = panel.allowed(set_code, random)
            get_packet = packet(panel.number, 0, get_code, sicp=sicp)
            report = packet(panel.number, 0, get_code, *values, sicp=sicp)
            set_packet = packet(panel.number, 0, set_code, *values, sicp=sicp)
            same(f"the answer to {set_packet.hex()}", host.ask(set_packet), control(panel.number, ACK, sicp))
            same(f"the report of {get_code:02X} by {panel.argument()}", host.ask(get_packet), report)
            bad = packet(panel.number, 0, set_code, *[255] * len(values), sicp=sicp)
            same(f"the answer to {bad.hex()}", host.ask(bad), control(panel.number, NAV, sicp))
            same("the report after NAV", host.ask(get_packet), report)
    host.end()


def after_session(site, image, bursts, sicp):
    """The answers to a session on a line, and the setup after it."""
    host = Host(site, image, "--sicp", sicp)
    answers = [host.ask(burst) for burst in bursts]
    host.end()
    return answers, bytes_of(image)


def a_third_of_the_packets_spoiled(site, random, count, sicp=NEW):
    """Demand 3 on a live line."""
    panels = all_models() + [Panel(k, 9 if k % 2 else 255, k % 2, k // 2 % 2) for k in range(10, 20)]
    sent = [random_packet(panels, random, sicp) for _ in range(count)]
    hit = set(random.sample(range(len(sent)), len(sent) // 3))
    on_the_way = [spoiled(burst, random) if k in hit else burst for k, burst in enumerate(sent)]
    without = [burst for k, burst in enumerate(sent) if k not in hit]
    with ThreadPoolExecutor() as both:
        noisy = both.submit(after_session, site, site.new("noisy", panels), on_the_way, sicp)
        clean = both.submit(after_session, site, site.new("clean", panels), without, sicp)
    (noisy_answers, noisy_setup), (clean_answers, clean_setup) = noisy.result(), clean.result()
    for k in hit:
        if noisy_answers[k] and noisy_answers[k] != control(noisy_answers[k][1], NACK, sicp):
            raise Missed(f"{sent[k].hex()} came as {on_the_way[k].hex()} and was answered by {noisy_answers[k].hex()}")
    same("the other answers", [a for k, a in enumerate(noisy_answers) if k not in hit], clean_answers)
    same("the setup", noisy_setup, clean_setup)
    played = site.new("played", panels)
    same("the answers of rig play", site.play(played, *on_the_way, options=("--sicp", sicp)), noisy_answers)
    same("its setup", bytes_of(played), noisy_setup)


TESTS = [
    ("every setting of both profiles and both kinds, set and got on a line", every_setting_set_and_got),
    ("every setting of both profiles and both kinds, set and got on a 1.85 line", partial(every_setting_set_and_got, sicp=OLD)),
    ("2,100 packets, a third of them spoiled on the way", partial(a_third_of_the_packets_spoiled, count=2100)),
    ("600 packets on a 1.85 line, a third of them spoiled", partial(a_third_of_the_packets_spoiled, count=600, sicp=OLD)),
]
