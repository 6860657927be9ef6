// In place of html5ever's tree builder, which nothing here needs.
