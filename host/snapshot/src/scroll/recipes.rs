//! The recipes: of each the crop, the dressing, and its rate in ml for 100 kg of seed.

pub const RECIPES: [[&str; 3]; 18] = [
    ["Winter wheat", "Fungicide A", "200"],
    ["Winter wheat", "Fungicide B", "150"],
    ["Spring wheat", "Fungicide B", "150"],
    ["Winter barley", "Fungicide C", "225"],
    ["Spring barley", "Fungicide C", "200"],
    ["Rye", "Fungicide B", "175"],
    ["Triticale", "Fungicide B", "175"],
    ["Oats", "Fungicide C", "250"],
    ["Maize", "Repellent F", "600"],
    ["Maize", "Insecticide D", "850"],
    ["Oilseed rape", "Insecticide D", "1500"],
    ["Field beans", "Fungicide E", "300"],
    ["Peas", "Inoculant G", "400"],
    ["Lupins", "Inoculant G", "400"],
    ["Linseed", "Fungicide A", "350"],
    ["Sunflower", "Repellent F", "700"],
    ["Clover", "Inoculant H", "950"],
    ["Grass", "Fungicide E", "500"],
];
