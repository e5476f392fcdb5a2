        let _on = on;
