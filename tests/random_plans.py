"""Random plans, for tests/test_plans.py and tests/test_wasm_answers.py."""
import random


def meals_of(fails, resigns):
    """Returns the number of meals of a site, by which jobs fail. A site that resigns eats none after the first."""
    return fails.index(True) + 1 if resigns and True in fails else len(fails)


def plan_of(seed):
    """Returns the text of a plan and its tables of edges and of sites, the same for the same seed."""
    dice = random.Random(seed)
    jobs = [[dice.randrange(3) == 0 for _ in range(dice.randrange(4))] for _ in range(dice.randint(1, 6))]
    second = seed % 2 == 1
    resigns = [second and dice.randrange(2) == 0 for _ in jobs]
    meals = [meals_of(fails, it) for fails, it in zip(jobs, resigns)]
    adds = [[dice.randrange(1_000_001) if second else 0 for _ in fails] for fails in jobs]
    text, sites = f"version = {1 + second}\n", "site,meals,failed\n"
    edges = "edge,lo,hi,lo_meals,hi_meals" + ",value" * second + "\n"
    for site, fails in enumerate(jobs):
        acts = [f"fails = {str(it).lower()}" + f", add = {add}" * second for it, add in zip(fails, adds[site])]
        listed = ", ".join(f'{{ name = "x", turns = {dice.randrange(100)}, {act} }}' for act in acts)
        text += f'[[site]]\nname = "s{site}"\njobs = [{listed}]\n' + 'on_fault = "resign"\n' * resigns[site]
        sites += f"s{site},{meals[site]},{sum(fails[:meals[site]])}\n"
    pairs = [(low, high) for high in range(len(jobs)) for low in range(high) if dice.randrange(2) == 0]
    for edge, (low, high) in enumerate(pairs):
        text += f'[[edge]]\nends = ["s{high}", "s{low}"]\n'
        value = dice.randrange(1_000_001) if second else 0
        text += f"value = {value}\n" * second
        value += sum(adds[low][:meals[low]] + adds[high][:meals[high]])
        edges += f"{edge},s{low},s{high},{meals[low]},{meals[high]}" + f",{value}" * second + "\n"
    return text, edges, sites
