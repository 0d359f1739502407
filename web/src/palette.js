// Colours, after the palette of Okabe and Ito, which the colour-blind can tell apart. What stands
// between the braces is JSON: tools/build_page makes the variables of the style sheet of it.

export const PALETTE = {
    "light": {
        "ground": "#ffffff",
        "page": "#f6f5f2",
        "ink": "#1c2128",
        "soft": "#5b636d",
        "line": "#dcdad4",
        "grid": "#ebe9e4",
        "link": "#00619a",
        "bar": "#0072b2",
        "peak": "#a5cde6",
        "sync": "#009e73",
        "cut": "#a2417a",
        "piece": "#6a717b",
        "differs": "#c44f00",
        "shade": "#716c60",
        "good": "#006f50",
        "bad": "#b34700",
        "tint": "#eef5fa",
        "good-tint": "#e6f4ee",
        "bad-tint": "#fdf0e7",
        "on-link": "#ffffff"
    },
    "dark": {
        "ground": "#1a1e24",
        "page": "#12151a",
        "ink": "#e8eaed",
        "soft": "#a3abb6",
        "line": "#343b45",
        "grid": "#272d35",
        "link": "#7cc4f0",
        "bar": "#56b4e9",
        "peak": "#29536e",
        "sync": "#8ff0cc",
        "cut": "#e39bc4",
        "piece": "#97a0ac",
        "differs": "#ff9152",
        "shade": "#948f80",
        "good": "#4fd3a8",
        "bad": "#ff9d66",
        "tint": "#1d2a35",
        "good-tint": "#14302a",
        "bad-tint": "#37241a",
        "on-link": "#0d1117"
    }
};

/**
 * The colours of a page whose style sheet has them as variables: what is drawn with them follows
 * light and dark.
 */
export const ON_PAGE =
    Object.fromEntries(Object.keys(PALETTE.light).map(name => [name, `var(--${name})`]));
