// The profile: how many steps the code from each name to the next took, beside the listing, which has those of each instruction.
"use strict";

const MOST_PROFILED = 24;

// Names with steps, that with the most first. What stands before a sandbox's first name goes by its address.
function stepsByName() {
    const found = [];
    now.sandboxes.forEach((own, sandbox) => {
        let last = null;
        for (const row of own.rows) {
            const place = placeOf(sandbox, row.at), named = nameAt(sandbox, row.at);
            if (!last || named) found.push(last = { place, steps: 0, name: named ? named.name : hex8(row.at), sandbox });
            last.steps += now.counts.get(place) || 0;
        }
    });
    return found.filter((it) => it.steps).sort((one, other) => other.steps - one.steps);
}

function drawProfile() {
    const rows = stepsByName(), all = rows.reduce((sum, it) => sum + it.steps, 0);
    $("profiled").hidden = !rows.length;
    $("profile").replaceChildren(...rows.slice(0, MOST_PROFILED).map((it) => {
        const line = make("button"), bar = make("i");
        line.title = `${it.steps} steps from ${it.name} to the next name`;
        bar.style.width = `${(100 * it.steps / rows[0].steps).toFixed(1)}%`;
        line.append(bar, make("b", "", (now.sandboxes.length > 1 ? `${it.sandbox}: ` : "") + it.name),
            make("span", "", `${it.steps.toLocaleString("en")}, ${(100 * it.steps / all).toFixed(1)} %`));
        line.onclick = () => showPlace(it.place);
        return line;
    }));
    if (rows.length > MOST_PROFILED) $("profile").append(make("div", "zero", `${rows.length - MOST_PROFILED} more`));
}

// Brings a place of the listing into view.
function showPlace(place) {
    setTab("image");
    const row = document.querySelector(`[data-place="${place}"]`);
    if (row) $("listing").scrollTop = row.offsetTop - 60;
}
